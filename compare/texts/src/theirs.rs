//! What Rust's own parsers say. A text that is no UTF-8 is bad.

use crate::ours::Answer;
use std::str::{from_utf8, FromStr};

const BAD: Answer = Answer { code: 0, value: 0 };
const MINUS_ONE: Answer = Answer { code: 2, value: 0 };

fn good(value: u64) -> Answer {
    Answer { code: 1, value }
}

fn parse<T: FromStr>(t: &[u8]) -> Option<T> {
    from_utf8(t).ok()?.parse().ok()
}

pub fn plain(t: &[u8]) -> Answer {
    parse::<usize>(t).map_or(BAD, |v| good(v as u64))
}

pub fn signed2(t: &[u8]) -> Answer {
    match parse::<isize>(t) {
        Some(-1) => MINUS_ONE,
        Some(v) if v >= 0 => good(v as u64),
        _ => BAD,
    }
}

/// RESP3, where `?` is -1 too.
pub fn signed3(t: &[u8]) -> Answer {
    if t == b"?" {
        MINUS_ONE
    } else {
        signed2(t)
    }
}

/// The value modulo 2^64.
pub fn number(t: &[u8]) -> Answer {
    parse::<i64>(t).map_or(BAD, |v| good(v as u64))
}

/// A double is compared by whether its text is accepted.
pub fn double(t: &[u8]) -> Answer {
    parse::<f64>(t).map_or(BAD, |_| good(0))
}

/// Rust has no parser of `t` and `f`: this is the rule itself.
pub fn boolean(t: &[u8]) -> Answer {
    match t {
        b"t" => good(1),
        b"f" => good(0),
        _ => BAD,
    }
}
