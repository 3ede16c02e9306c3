//! Replies, and how they are written.

use crate::codes;
use crate::json::{write_text, write_value, write_whole};
use crate::names::parts_of_grain;
use crate::silo::Silo;
use crate::value::Value;

#[derive(Clone, Copy)]
pub enum To {
    Client { caller: u32, id: i64 },
    Grain(u32),
}

/// A code, with the tenant and the grain that its text may name.
#[derive(Clone, Copy)]
pub struct Fault {
    pub code: u8,
    pub tenant: u32,
    pub grain: u32,
}

impl Fault {
    /// One whose text names nobody.
    pub fn bare(code: u8) -> Fault {
        Fault { code, tenant: 0, grain: 0 }
    }
}

pub struct Reply {
    pub to: To,
    pub what: Result<Value, Fault>,
}

pub const NOT_NOW: &[u8] = b"{\"text\":\"not now\"}\n";

/// Writes the line of a reply.
pub fn write_reply(silo: &Silo, reply: &Reply, out: &mut Vec<u8>) {
    out.push(b'{');
    if let Err(fault) = &reply.what {
        out.extend_from_slice(b"\"error\":");
        write_whole(fault.code.into(), out);
        out.push(b',');
    }
    out.extend_from_slice(b"\"from\":");
    match reply.to {
        To::Client { caller, id } => {
            // a name needs no escapes
            write_plain(silo.callers.text(caller), out);
            out.extend_from_slice(b",\"id\":");
            write_whole(id, out);
        }
        To::Grain(grain) => write_text(silo.grains.text(grain), out),
    }
    match &reply.what {
        Ok(value) => {
            out.extend_from_slice(b",\"ok\":");
            write_value(value, out);
        }
        Err(fault) => {
            out.extend_from_slice(b",\"text\":");
            write_fault(silo, fault, out);
        }
    }
    out.extend_from_slice(b"}\n");
}

/// Writes the line of a refusal that is nobody's.
pub fn write_refusal(code: u8, out: &mut Vec<u8>) {
    out.extend_from_slice(b"{\"error\":");
    write_whole(code.into(), out);
    out.extend_from_slice(b",\"text\":");
    write_plain(codes::text_of(code), out);
    out.extend_from_slice(b"}\n");
}

fn write_plain(text: &str, out: &mut Vec<u8>) {
    out.push(b'"');
    out.extend_from_slice(text.as_bytes());
    out.push(b'"');
}

fn write_fault(silo: &Silo, fault: &Fault, out: &mut Vec<u8>) {
    let tenant = |place| silo.tenants.text(place);
    let grain = || silo.grains.text(fault.grain);
    let parts = || parts_of_grain(grain()).expect("a grain");
    let text = match fault.code {
        codes::UNKNOWN_TENANT => format!("tenant {} is unknown", tenant(fault.tenant)),
        codes::UNKNOWN_KIND => format!("kind {} is unknown", parts().0),
        codes::ACROSS_TENANTS => {
            format!("tenant {} may not call a grain of tenant {}", tenant(fault.tenant), parts().1)
        }
        codes::NO_ACTIVATION => format!("tenant {} has no free activation", tenant(fault.tenant)),
        codes::MAILBOX_FULL => format!("mailbox of {} is full", grain()),
        codes::NO_NUMBER => format!("tenant {} has no request number left", tenant(fault.tenant)),
        codes::STATE_CHANGED => format!("stored state of {} has changed", grain()),
        codes::VERSIONS_SPENT => format!("versions of {} are spent", grain()),
        code => return write_plain(codes::text_of(code), out),
    };
    write_text(&text, out);
}
