//! Our checks, from the static library `text_calls`.

/// code: 0 for a bad text, 1 for a good one, 2 for a length of -1. value: that of a length, a Number or a boolean, else 0.
#[repr(C)]
#[derive(Clone, Copy, PartialEq, Eq, Debug)]
pub struct Answer {
    pub code: u64,
    pub value: u64,
}

#[link(name = "text_calls", kind = "static")]
extern "C" {
    fn text_call_plain(s: *const u8, n: usize) -> Answer;
    fn text_call_signed(s: *const u8, n: usize, three: bool) -> Answer;
    fn text_call_number(s: *const u8, n: usize) -> Answer;
    fn text_call_double(s: *const u8, n: usize) -> Answer;
    fn text_call_boolean(s: *const u8, n: usize) -> Answer;
}

// Each call lends a slice that is there until it returns, and the library asks nothing else of its caller.

pub fn plain(t: &[u8]) -> Answer {
    unsafe { text_call_plain(t.as_ptr(), t.len()) }
}

pub fn signed2(t: &[u8]) -> Answer {
    unsafe { text_call_signed(t.as_ptr(), t.len(), false) }
}

pub fn signed3(t: &[u8]) -> Answer {
    unsafe { text_call_signed(t.as_ptr(), t.len(), true) }
}

pub fn number(t: &[u8]) -> Answer {
    unsafe { text_call_number(t.as_ptr(), t.len()) }
}

pub fn double(t: &[u8]) -> Answer {
    unsafe { text_call_double(t.as_ptr(), t.len()) }
}

pub fn boolean(t: &[u8]) -> Answer {
    unsafe { text_call_boolean(t.as_ptr(), t.len()) }
}
