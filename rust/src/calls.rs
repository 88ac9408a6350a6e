//! The library's calls, and their answers as numbers.

/// What a decode gives back, as numbers.
#[repr(C)]
#[derive(Clone, Copy, Debug, PartialEq, Eq)]
pub struct Decoded {
    /// 0 unfinished, 1 frame, 2 marker, 3 refused.
    pub answer: u64,
    /// A [`Refusal`](crate::Refusal) by its number where the answer is 3, else 0.
    pub refusal: u64,
    /// The frame's bytes, from where the decode began; 0 where there is none.
    pub consumed: u64,
    /// The rows of the table that the frame takes; all words behind them are as they were.
    pub rows: u64,
}

/// What an encode or its length gives back, as numbers.
#[repr(C)]
#[derive(Clone, Copy, Debug, PartialEq, Eq)]
pub struct Encoded {
    /// A [`Refusal`](crate::Refusal) by its number, 0 where there is none.
    pub refusal: u64,
    /// The bytes that were written, or are needed where the refusal is 12; else 0.
    pub bytes: u64,
}

impl Encoded {
    /// The bytes written or needed, or the refusal's number with [`bytes`](Encoded::bytes).
    #[inline]
    pub fn result(&self) -> Result<usize, (u64, usize)> {
        match self.refusal {
            0 => Ok(self.bytes as usize),
            k => Err((k, self.bytes as usize)),
        }
    }
}

mod raw {
    use super::{Decoded, Encoded};

    extern "C" {
        pub fn imrazgul_resp2_decode(src: *const u8, src_len: usize, table: *mut u64, words: usize) -> Decoded;
        pub fn imrazgul_resp3_decode(src: *const u8, src_len: usize, table: *mut u64, words: usize) -> Decoded;
        pub fn imrazgul_resp3_stream(src: *const u8, src_len: usize, table: *mut u64, words: usize) -> Decoded;
        pub fn imrazgul_resp2_decode_at(
            src: *const u8,
            src_len: usize,
            at: usize,
            table: *mut u64,
            words: usize,
        ) -> Decoded;
        pub fn imrazgul_resp3_decode_at(
            src: *const u8,
            src_len: usize,
            at: usize,
            table: *mut u64,
            words: usize,
        ) -> Decoded;
        pub fn imrazgul_resp3_stream_at(
            src: *const u8,
            src_len: usize,
            at: usize,
            table: *mut u64,
            words: usize,
        ) -> Decoded;
        pub fn imrazgul_resp2_encode(
            src: *const u8,
            src_len: usize,
            table: *const u64,
            words: usize,
            ints_as_bulk: bool,
            out: *mut u8,
            out_len: usize,
        ) -> Encoded;
        pub fn imrazgul_resp2_length(
            src: *const u8,
            src_len: usize,
            table: *const u64,
            words: usize,
            ints_as_bulk: bool,
        ) -> Encoded;
        pub fn imrazgul_u64_digits(n: u64, bytes: *mut [u8; 20]) -> u64;
        pub fn imrazgul_i64_digits(n: i64, bytes: *mut [u8; 20]) -> u64;
    }
}

// Each call below is safe since a Rust slice is what the library asks of a pointer and a length, the lent parts do
// not overlap, and the library's functions ask nothing else of their caller.

/// Decodes the RESP2 frame that `src` begins with.
#[inline]
pub fn resp2_decode(src: &[u8], table: &mut [u64]) -> Decoded {
    unsafe { raw::imrazgul_resp2_decode(src.as_ptr(), src.len(), table.as_mut_ptr(), table.len()) }
}

/// Decodes the RESP3 frame that `src` begins with; a streaming marker is refused.
#[inline]
pub fn resp3_decode(src: &[u8], table: &mut [u64]) -> Decoded {
    unsafe { raw::imrazgul_resp3_decode(src.as_ptr(), src.len(), table.as_mut_ptr(), table.len()) }
}

/// Decodes the RESP3 frame or streaming marker that `src` begins with.
#[inline]
pub fn resp3_stream(src: &[u8], table: &mut [u64]) -> Decoded {
    unsafe { raw::imrazgul_resp3_stream(src.as_ptr(), src.len(), table.as_mut_ptr(), table.len()) }
}

/// Decodes the RESP2 frame at a place of `src`: bytes are counted from the place, offsets from the front of `src`, and
/// a place behind the end is like the end.
#[inline]
pub fn resp2_decode_at(src: &[u8], at: usize, table: &mut [u64]) -> Decoded {
    unsafe { raw::imrazgul_resp2_decode_at(src.as_ptr(), src.len(), at, table.as_mut_ptr(), table.len()) }
}

/// Decodes the RESP3 frame at a place of `src`, as [`resp2_decode_at`] does; a streaming marker is refused.
#[inline]
pub fn resp3_decode_at(src: &[u8], at: usize, table: &mut [u64]) -> Decoded {
    unsafe { raw::imrazgul_resp3_decode_at(src.as_ptr(), src.len(), at, table.as_mut_ptr(), table.len()) }
}

/// Decodes the RESP3 frame or streaming marker at a place of `src`, as [`resp2_decode_at`] does.
#[inline]
pub fn resp3_stream_at(src: &[u8], at: usize, table: &mut [u64]) -> Decoded {
    unsafe { raw::imrazgul_resp3_stream_at(src.as_ptr(), src.len(), at, table.as_mut_ptr(), table.len()) }
}

/// Writes the RESP2 frame of the first row of `table`, whose texts stand in `src`, to the front of `out`. With
/// `ints_as_bulk` integers are written as bulk strings.
#[inline]
pub fn resp2_encode(src: &[u8], table: &[u64], ints_as_bulk: bool, out: &mut [u8]) -> Encoded {
    unsafe {
        raw::imrazgul_resp2_encode(
            src.as_ptr(),
            src.len(),
            table.as_ptr(),
            table.len(),
            ints_as_bulk,
            out.as_mut_ptr(),
            out.len(),
        )
    }
}

/// The bytes that [`resp2_encode`] needs.
#[inline]
pub fn resp2_length(src: &[u8], table: &[u64], ints_as_bulk: bool) -> Encoded {
    unsafe { raw::imrazgul_resp2_length(src.as_ptr(), src.len(), table.as_ptr(), table.len(), ints_as_bulk) }
}

/// The digits of `n`, filled with `0` on the left, and the count of unused bytes at the front.
#[inline]
pub fn u64_digits(n: u64) -> ([u8; 20], usize) {
    let mut bytes = [0; 20];
    let unused = unsafe { raw::imrazgul_u64_digits(n, &mut bytes) };
    (bytes, unused as usize)
}

/// The same with a sign just before the first digit of a negative number.
#[inline]
pub fn i64_digits(n: i64) -> ([u8; 20], usize) {
    let mut bytes = [0; 20];
    let unused = unsafe { raw::imrazgul_i64_digits(n, &mut bytes) };
    (bytes, unused as usize)
}
