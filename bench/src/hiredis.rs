//! As much of hiredis as is measured: its reader, with its reply objects and without.

use std::ffi::{c_char, c_int, c_void};
use std::ptr::null_mut;

extern "C" {
    fn redisReaderCreate() -> *mut c_void;
    fn redisReaderCreateWithFunctions(functions: *mut c_void) -> *mut c_void;
    fn redisReaderFree(reader: *mut c_void);
    fn redisReaderFeed(reader: *mut c_void, buf: *const c_char, len: usize) -> c_int;
    fn redisReaderGetReply(reader: *mut c_void, reply: *mut *mut c_void) -> c_int;
    fn freeReplyObject(reply: *mut c_void);
}

/// A reader that makes reply objects, or one that only parses: hiredis makes none where its functions are null.
pub struct Reader {
    at: *mut c_void,
    objects: bool,
}

#[derive(Clone, Copy, Debug, PartialEq, Eq)]
pub enum Said {
    Reply,
    Unfinished,
    Refused,
}

impl Reader {
    pub fn new(objects: bool) -> Reader {
        let at = unsafe {
            if objects {
                redisReaderCreate()
            } else {
                redisReaderCreateWithFunctions(null_mut())
            }
        };
        assert!(!at.is_null());
        Reader { at, objects }
    }

    pub fn feed(&mut self, bytes: &[u8]) {
        unsafe { redisReaderFeed(self.at, bytes.as_ptr().cast(), bytes.len()) };
    }

    /// Takes the next reply and lets it go.
    pub fn reply(&mut self) -> Said {
        let mut reply = null_mut();
        if unsafe { redisReaderGetReply(self.at, &mut reply) } != 0 {
            return Said::Refused;
        }
        if reply.is_null() {
            return Said::Unfinished;
        }
        if self.objects {
            unsafe { freeReplyObject(reply) };
        }
        Said::Reply
    }
}

impl Drop for Reader {
    fn drop(&mut self) {
        unsafe { redisReaderFree(self.at) };
    }
}
