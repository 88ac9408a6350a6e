//! Prints texts with the answer of Rust's own parsers, for a program that holds our text checks to them.
//!
//! A record is a line: letter, TAB, expected, TAB, text, LF. No text holds a TAB or an LF; some hold spaces, a lone CR
//! or bytes that are no UTF-8. The letters:
//!
//! - `p` plain length: the value by `usize`, or `-`
//! - `s` signed length of RESP2: the value by `isize` where it is 0 or more, `n` for -1, else `-`
//! - `t` the same for RESP3, where `?` is `n`
//! - `i` number: the value by `i64` modulo 2^64, or `-`
//! - `d` double: `1` where `f64` takes it, else `0`
//! - `h` Hello's line: `-`, or version and six offsets, user, password, name, joined by commas; absent is 0,0. These
//!   are the crate's own answers, since Rust has no parser for them.

use redis_protocol::resp3::decode::complete::decode_range;
use redis_protocol::resp3::types::{RangeFrame, RespVersion};
use std::collections::BTreeSet;
use std::io::Write;

/// Each limit of each type, one more and one less, and with a digit more and a digit less.
fn around(limit: i128) -> Vec<String> {
    let mut all = Vec::new();
    for n in [limit - 1, limit, limit + 1] {
        all.push(n.to_string());
    }
    let text = limit.to_string();
    all.push(text[..text.len() - 1].to_string());
    for d in ["0", "9"] {
        all.push(format!("{text}{d}"));
    }
    // the same text with its last digit, or its first, one higher
    let bump = |i: usize| {
        let mut b = text.clone().into_bytes();
        if b[i].is_ascii_digit() && b[i] < b'9' {
            b[i] += 1;
        }
        String::from_utf8(b).unwrap()
    };
    all.push(bump(text.len() - 1));
    all.push(bump(usize::from(limit < 0)));
    all
}

/// Texts of lengths and numbers.
pub fn numbers() -> BTreeSet<Vec<u8>> {
    let mut all: BTreeSet<Vec<u8>> = BTreeSet::new();
    let limits = [0, i64::MAX as i128, i64::MIN as i128, u64::MAX as i128, -(u64::MAX as i128), 1 << 32, 1 << 31];
    for text in limits.iter().flat_map(|l| around(*l)) {
        all.insert(text.clone().into_bytes());
        let (sign, digits) = if let Some(d) = text.strip_prefix('-') { ("-", d) } else { ("", text.as_str()) };
        all.insert(format!("{sign}0{digits}").into_bytes());
        all.insert(format!("{sign}{}{digits}", "0".repeat(25)).into_bytes());
        if sign.is_empty() {
            all.insert(format!("+{digits}").into_bytes());
        }
    }
    // powers of ten: 18 and 19 digits are where a short reading ends
    for k in [1, 2, 17, 18, 19, 20] {
        for sign in ["", "-"] {
            all.insert(format!("{sign}1{}", "0".repeat(k)).into_bytes());
            all.insert(format!("{sign}{}", "9".repeat(k)).into_bytes());
        }
    }
    let odd = [
        "", "+", "-", "?", "??", "+?", "-?", "?1", "1?", "0?", "+-1", "-+1", "--1", "++1", "1-", "1+", "1+1", " ",
        " 1", "1 ", "1 2", "+ 1", "- 1", "-0", "+0", "-00", "00", "000000000000000000000000000000",
        "-000000000000000000000000000001", "-01", "+01", "-1", "-2", "+1", "1.0", "1e3", "0x10", "1_000", "1,000", "a",
        "1a", "a1", "/", ":", "0/", "0:", "nan", "inf", "\r", "1\r2", "1\r", "\u{663}", "1\u{0}", "\u{0}", "\u{ff11}",
    ];
    all.extend(odd.iter().map(|t| t.as_bytes().to_vec()));
    for bad in [&b"\xff"[..], b"1\xff", b"\xc3", b"-1\x80"] {
        all.insert(bad.to_vec());
    }
    all
}

pub fn doubles() -> BTreeSet<Vec<u8>> {
    let mut all: BTreeSet<Vec<u8>> = BTreeSet::new();
    let words = ["inf", "INF", "Inf", "iNf", "infinity", "INFINITY", "Infinity", "nan", "NAN", "NaN", "nAN"];
    for w in words {
        for sign in ["", "+", "-"] {
            all.insert(format!("{sign}{w}").into_bytes());
        }
    }
    let odd = [
        "in", "infi", "infinit", "infinityy", "infinity ", " inf", "inf1", "1inf", "nann", "na", "n", "i", "nan(1)",
        "+-inf", "1.5", "0.0", "-0.0", "-0", "+0", ".5", "5.", "+.5", "-.5", "+5.", "-5.", ".", "+.", "-.", "..",
        "1..2", "1.2.3", "1.+2", "1e", "1E", "1e+", "1e-", "1e5", "1E5", "1e+5", "1E-5", "1e05", "1e+05", "1e5.5",
        "1e5e5", "1e 5", "1 e5", "e5", "E5", ".e5", "+e5", "+.e5", "5.e5", ".5e5", "5.5e5", "-5.5E-5", "1ee5", "1e++5",
        "1e+-5", "1e400", "-1e400", "1e-400", "1e99999999999999999999", "1e-99999999999999999999",
        "0e99999999999999999999", "1.7976931348623157e308", "1.7976931348623159e308", "5e-324", "2e-324",
        "4.9406564584124654e-324", "0x1p3", "0x10", "1_0", "1,5", "1f", "1d", "1.5f64", "1e5 ", " 1e5", "1.5 ", " ",
        "00.5", "000", "0.", ".0", "1.0e", "1.0e+", "١", "1e١", "1e5\r", "\r1", "1\r.5",
        "123456789012345678901234567890", "0.123456789012345678901234567890",
        "1234567890123456789012345678901234567890e-40",
    ];
    all.extend(odd.iter().map(|t| t.as_bytes().to_vec()));
    // every text of one to three bytes over the grammar's signs
    let marks = b"+-0.e";
    for n in 1..=3u32 {
        for k in 0..5usize.pow(n) {
            all.insert((0..n).map(|i| marks[k / 5usize.pow(i) % 5]).collect());
        }
    }
    for bad in [&b"\xff"[..], b"1.5\xff", b"\xc3", b"1e5\x80"] {
        all.insert(bad.to_vec());
    }
    all
}

pub fn hellos() -> BTreeSet<Vec<u8>> {
    let lines = [
        "H", "HE", "HELLO", "HELLO ", "HELLO 2", "HELLO 3", "HELLO 1", "HELLO 4", "HELLO 33", "HELLO 03", "HELLO +3",
        "HELLO  3", "HELLO 3 ", "HELLO 3  ", "hello 3", "HELLOO 3", "HELL 3", "HELLO3", "HELLO\r3", "HELLO 3\r",
        "HELLO 3 SETNAME", "HELLO 3 SETNAME ", "HELLO 3 SETNAME a", "HELLO 2 SETNAME abc", "HELLO 3 SETNAME a ",
        "HELLO 3 SETNAME a b", "HELLO 3 SETNAME a b c", "HELLO 3 setname a", "HELLO 3 SETNAMES a", "HELLO 3 SETNAM a",
        "HELLO 3  SETNAME a", "HELLO 3 SETNAME  a", "HELLO 3 AUTH", "HELLO 3 AUTH ", "HELLO 3 AUTH u",
        "HELLO 3 AUTH u ", "HELLO 3 AUTH u p", "HELLO 2 AUTH user password", "HELLO 3 AUTH  ", "HELLO 3 AUTH  p",
        "HELLO 3 AUTH u p ", "HELLO 3 AUTH u p q", "HELLO 3 auth u p", "HELLO 3 AUTHS u p", "HELLO 3 AUT u p",
        "HELLO 3 SETNAME u p", "HELLO 3 AUTH u p SETNAME", "HELLO 3 AUTH u p SETNAME ", "HELLO 3 AUTH u p SETNAME n",
        "HELLO 2 AUTH user pass SETNAME name", "HELLO 3 AUTH   SETNAME ", "HELLO 3 AUTH u p SETNAME n ",
        "HELLO 3 AUTH u p SETNAME n m", "HELLO 3 AUTH u p setname n", "HELLO 3 SETNAME n AUTH u p",
        "HELLO 3 AUTH u p AUTH u", "HELLO 1 AUTH u p", "HELLO  AUTH u p", "HELLO 3 AUTH \r \r",
        "HELLO 3 AUTH SETNAME x", "HELLO 3 AUTH AUTH AUTH SETNAME SETNAME",
    ];
    let mut all: BTreeSet<Vec<u8>> = lines.iter().map(|t| t.as_bytes().to_vec()).collect();
    all.insert(b"HELLO \xff".to_vec());
    all.insert(b"HELLO 3 SETNAME \xff\xfe".to_vec());
    all.insert(b"HELLO 3 AUTH \xc3 \x80".to_vec());
    all
}

fn text(t: &[u8]) -> Option<&str> {
    std::str::from_utf8(t).ok()
}

fn or_dash<T: ToString>(v: Option<T>) -> String {
    v.map_or("-".into(), |v| v.to_string())
}

fn plain(t: &[u8]) -> String {
    or_dash(text(t).and_then(|s| s.parse::<usize>().ok()))
}

fn signed(t: &[u8], question: bool) -> String {
    if question && t == b"?" {
        return "n".into();
    }
    match text(t).and_then(|s| s.parse::<isize>().ok()) {
        Some(-1) => "n".into(),
        Some(v) if v >= 0 => v.to_string(),
        _ => "-".into(),
    }
}

fn number(t: &[u8]) -> String {
    or_dash(text(t).and_then(|s| s.parse::<i64>().ok()).map(|v| v as u64))
}

fn double(t: &[u8]) -> String {
    u8::from(text(t).and_then(|s| s.parse::<f64>().ok()).is_some()).to_string()
}

fn hello(t: &[u8]) -> String {
    let mut line = t.to_vec();
    line.extend(b"\r\n");
    match decode_range(&line) {
        Ok(Some((RangeFrame::Hello { version, username, password, setname }, n))) if n == line.len() => {
            let version = if version == RespVersion::RESP2 { 2 } else { 3 };
            let [u, p, s] = [username, password, setname].map(|r| r.unwrap_or((0, 0)));
            format!("{version},{},{},{},{},{},{}", u.0, u.1, p.0, p.1, s.0, s.1)
        }
        _ => "-".into(),
    }
}

/// Every text of the list once.
#[cfg(feature = "ours")]
pub fn every() -> BTreeSet<Vec<u8>> {
    let mut all = numbers();
    all.extend(doubles());
    all.extend(hellos());
    all
}

pub fn run() -> bool {
    let mut out = Vec::new();
    let mut put = |letter: u8, expected: String, t: &[u8]| {
        assert!(!t.contains(&b'\t') && !t.contains(&b'\n'));
        out.push(letter);
        out.push(b'\t');
        out.extend(expected.as_bytes());
        out.push(b'\t');
        out.extend(t);
        out.push(b'\n');
    };
    let numbers = numbers();
    for t in &numbers {
        put(b'p', plain(t), t);
        put(b's', signed(t, false), t);
        put(b't', signed(t, true), t);
        put(b'i', number(t), t);
    }
    for t in doubles().union(&numbers) {
        put(b'd', double(t), t);
    }
    for t in &hellos() {
        put(b'h', hello(t), t);
    }
    std::io::stdout().write_all(&out).unwrap();
    true
}
