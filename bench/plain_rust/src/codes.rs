//! The codes of faults.

pub const NOT_A_REQUEST: u8 = 10;
pub const TOO_LONG: u8 = 11;
pub const TOO_DEEP: u8 = 12;
pub const NOT_WHOLE: u8 = 13;
pub const NOT_BYTES: u8 = 14;
pub const BAD_GRAIN: u8 = 20;
pub const UNKNOWN_TENANT: u8 = 21;
pub const UNKNOWN_KIND: u8 = 22;
pub const ACROSS_TENANTS: u8 = 40;
pub const NO_ACTIVATION: u8 = 41;
pub const MAILBOX_FULL: u8 = 42;
pub const NO_NUMBER: u8 = 43;
pub const STORAGE_FAILED: u8 = 53;
pub const STATE_CHANGED: u8 = 54;
pub const VERSIONS_SPENT: u8 = 56;
pub const UNKNOWN_METHOD: u8 = 60;
pub const MISFIT: u8 = 61;
pub const OUT_OF_RANGE: u8 = 62;
pub const STATE_TOO_LARGE: u8 = 63;
pub const NO_MEMORY: u8 = 70;

/// The text of a code that names nobody.
pub fn text_of(code: u8) -> &'static str {
    match code {
        NOT_A_REQUEST => "line is not a request",
        TOO_LONG => "line is too long",
        TOO_DEEP => "arguments are too deep",
        NOT_WHOLE => "number is not a whole number of 64 bits",
        NOT_BYTES => "bytes are not well formed",
        BAD_GRAIN => "grain name is not well formed",
        STORAGE_FAILED => "storage failed",
        UNKNOWN_METHOD => "method is unknown",
        MISFIT => "arguments do not fit",
        OUT_OF_RANGE => "result is out of range",
        STATE_TOO_LARGE => "state is too large",
        _ => "turn met want of memory",
    }
}
