//! Answers what is asked before it looks at what is asked next.

use crate::line::{At, Said};
use crate::silo::Silo;

/// No more is delivered after a line once the messages of what was delivered have so many bytes.
const DELIVERED_BYTES: usize = 262_144;

/// Whether a client asks it, or it is the clock or sweeping.
pub fn is_asked(said: &Said) -> bool {
    !matches!(said, Said::At(..))
}

/// Answers what is asked, delivers at most so many sends of the caller's tenant, and says whether the step was possible.
pub fn answer(silo: &mut Silo, said: Said, most: u32) -> bool {
    let tenant = said.caller().map(|from| silo.place_of_caller(from)).map(|caller| *silo.callers.at(caller));
    let before = silo.replies.len();
    let is_done = match said {
        Said::Call { from, id, grain, method, args } => {
            let (caller, grain) = (silo.place_of_caller(&from), silo.place_of_grain(&grain));
            silo.call(caller, id, grain, method, args);
            if silo.replies.len() == before {
                serve(silo, grain, false);
            }
            true
        }
        said => silo.take(said),
    };
    if let Some(tenant) = tenant {
        deliver(silo, tenant, most);
    }
    is_done
}

/// Delivers the oldest send of a tenant's grains, and so on, at most so many times and bytes.
fn deliver(silo: &mut Silo, tenant: u32, most: u32) {
    let mut delivered = 0;
    for _ in 0..most {
        let Some(oldest) = silo.oldest_send(tenant).filter(|_| delivered < DELIVERED_BYTES) else { break };
        let is_given_up = silo.too_many_wait(tenant);
        let before = silo.replies.len();
        silo.take_at(At::Deliver, oldest.source);
        if silo.replies.len() == before {
            serve(silo, oldest.target, is_given_up);
        }
        delivered += oldest.length;
    }
}

/// Activates the grain if need be, and gives its first request its turn, which is perhaps given up.
fn serve(silo: &mut Silo, grain: u32, is_given_up: bool) {
    if silo.take_at(At::Activate, grain) {
        silo.take_at(At::Load { failed: false }, grain);
    }
    if !silo.take_at(At::Begin, grain) {
        return;
    }
    if let Some((turn, is_storing)) = silo.first_turn(grain) {
        let at = match (is_given_up, is_storing) {
            (true, _) => At::Abandon { turn },
            (false, true) => At::Store { turn, failed: false },
            (false, false) => At::End { turn },
        };
        silo.take_at(at, grain);
    }
}
