//! The crate's side: what it answers, and its frame as a list of numbers in a form of its own order.
//!
//! The crate's maps and sets have no order and hold equal keys once, so a frame is flattened with its pairs and members
//! sorted. `ours` flattens rows the same way.

use redis_protocol::resp2;
use redis_protocol::resp3;
use redis_protocol::resp3::types::{DecodedRangeFrame, FrameKind, RangeFrame, RespVersion, VerbatimStringFormat};

#[derive(Clone, Copy, Debug, PartialEq, Eq)]
pub enum Protocol {
    Resp2,
    Resp3,
    Stream,
}

pub enum Theirs {
    Unfinished,
    /// The crate's words for it.
    Refused(String),
    Frame(usize),
    Marker(usize),
}

/// Decodes buf; a frame or marker is flattened into flat, which is cleared first.
pub fn decode(protocol: Protocol, buf: &[u8], flat: &mut Vec<u64>) -> Theirs {
    flat.clear();
    match protocol {
        Protocol::Resp2 => match resp2::decode::decode_range(buf) {
            Ok(None) => Theirs::Unfinished,
            Err(e) => Theirs::Refused(e.details().into()),
            Ok(Some((f, n))) => {
                flat2(&f, flat);
                Theirs::Frame(n)
            }
        },
        Protocol::Resp3 => match resp3::decode::complete::decode_range(buf) {
            Ok(None) => Theirs::Unfinished,
            Err(e) => Theirs::Refused(e.details().into()),
            Ok(Some((f, n))) => {
                flat3(&f, flat);
                Theirs::Frame(n)
            }
        },
        Protocol::Stream => match resp3::decode::streaming::decode_range(buf) {
            Ok(None) => Theirs::Unfinished,
            Err(e) => Theirs::Refused(e.details().into()),
            Ok(Some((DecodedRangeFrame::Complete(f), n))) => {
                flat3(&f, flat);
                Theirs::Frame(n)
            }
            Ok(Some((DecodedRangeFrame::Streaming(f), n))) => {
                flat.extend([19, 0, 0, code(&f.kind)]);
                attributes(&f.attributes, flat);
                Theirs::Marker(n)
            }
        },
    }
}

pub fn code(kind: &FrameKind) -> u64 {
    match kind {
        FrameKind::SimpleString => 1,
        FrameKind::SimpleError => 2,
        FrameKind::Number => 3,
        FrameKind::Double => 4,
        FrameKind::Boolean => 5,
        FrameKind::Null => 6,
        FrameKind::BlobString => 7,
        FrameKind::BlobError => 8,
        FrameKind::VerbatimString => 9,
        FrameKind::BigNumber => 10,
        FrameKind::ChunkedString => 11,
        FrameKind::EndStream => 12,
        FrameKind::Array => 13,
        FrameKind::Map => 14,
        FrameKind::Set => 15,
        FrameKind::Push => 16,
        FrameKind::Attribute => 17,
        FrameKind::Hello => 18,
    }
}

fn flat2(f: &resp2::types::RangeFrame, out: &mut Vec<u64>) {
    use resp2::types::RangeFrame::*;
    match f {
        SimpleString(r) => out.extend([1, r.0 as u64, r.1 as u64, 0, 0]),
        Error(r) => out.extend([2, r.0 as u64, r.1 as u64, 0, 0]),
        Integer(n) => out.extend([3, *n as u64, 0, 0, 0]),
        BulkString(r) => out.extend([7, r.0 as u64, r.1 as u64, 0, 0]),
        Null => out.extend([6, 0, 0, 0, 0]),
        Array(fs) => {
            out.extend([13, 0, 0, fs.len() as u64, 0]);
            for f in fs {
                flat2(f, out);
            }
        }
    }
}

type Pairs = resp3::types::RangeAttributes;

fn attributes(a: &Option<Pairs>, out: &mut Vec<u64>) {
    match a {
        None => out.push(0),
        Some(m) => {
            out.push(1);
            pairs(m, out);
        }
    }
}

fn pairs(m: &Pairs, out: &mut Vec<u64>) {
    let mut all: Vec<Vec<u64>> = m
        .iter()
        .map(|(k, v)| {
            let mut one = Vec::new();
            flat3(k, &mut one);
            flat3(v, &mut one);
            one
        })
        .collect();
    all.sort();
    out.push(all.len() as u64);
    out.extend(all.into_iter().flatten());
}

fn flat3(f: &RangeFrame, out: &mut Vec<u64>) {
    let kind = code(&f.kind());
    match f {
        RangeFrame::SimpleString { data, attributes: a }
        | RangeFrame::SimpleError { data, attributes: a }
        | RangeFrame::BlobString { data, attributes: a }
        | RangeFrame::BlobError { data, attributes: a }
        | RangeFrame::BigNumber { data, attributes: a } => {
            out.extend([kind, data.0 as u64, data.1 as u64, 0]);
            attributes(a, out);
        }
        RangeFrame::VerbatimString { data, format, attributes: a } => {
            let format = if *format == VerbatimStringFormat::Text { 1 } else { 2 };
            out.extend([kind, data.0 as u64, data.1 as u64, format]);
            attributes(a, out);
        }
        // the crate keeps the value and not its place
        RangeFrame::Double { data, attributes: a } => {
            out.extend([kind, data.to_bits(), 0, 0]);
            attributes(a, out);
        }
        RangeFrame::Boolean { data, attributes: a } => {
            out.extend([kind, u64::from(*data), 0, 0]);
            attributes(a, out);
        }
        RangeFrame::Number { data, attributes: a } => {
            out.extend([kind, *data as u64, 0, 0]);
            attributes(a, out);
        }
        RangeFrame::Null => out.extend([kind, 0, 0, 0, 0]),
        RangeFrame::ChunkedString(data) => {
            out.extend([kind, data.0 as u64, data.1 as u64, 0, 0]);
        }
        RangeFrame::Array { data, attributes: a } | RangeFrame::Push { data, attributes: a } => {
            out.extend([kind, 0, 0, data.len() as u64]);
            attributes(a, out);
            for f in data {
                flat3(f, out);
            }
        }
        RangeFrame::Map { data, attributes: a } => {
            out.extend([kind, 0, 0, 0]);
            attributes(a, out);
            pairs(data, out);
        }
        RangeFrame::Set { data, attributes: a } => {
            out.extend([kind, 0, 0, 0]);
            attributes(a, out);
            let mut all: Vec<Vec<u64>> = data
                .iter()
                .map(|f| {
                    let mut one = Vec::new();
                    flat3(f, &mut one);
                    one
                })
                .collect();
            all.sort();
            out.push(all.len() as u64);
            out.extend(all.into_iter().flatten());
        }
        RangeFrame::Hello { version, username, password, setname } => {
            let version = if *version == RespVersion::RESP2 { 2 } else { 3 };
            out.extend([kind, 0, 0, version, 0]);
            for field in [username, password, setname] {
                match field {
                    Some(r) => out.extend([1, r.0 as u64, r.1 as u64]),
                    None => out.push(0),
                }
            }
        }
    }
}

/// Whether our refusal is one that the crate's words can stand for. It has no numbers; some of its words stand for two.
pub fn stands_for(words: &str, refusal: u64) -> bool {
    let starts = |p: &str| words.starts_with(p);
    if starts("frame_type") {
        refusal == 1
    } else if starts("to_isize") || starts("isize_to_usize") {
        refusal == 2
    } else if starts("parse_as") {
        refusal == 2 || refusal == 3
    } else if starts("to_i64") || starts("to_bool") {
        refusal == 3
    } else if starts("parse_utf8") {
        (2..=5).contains(&refusal)
    } else if starts("parse_verbatimstring") || starts("to_verbatimstring_format") {
        refusal == 4
    } else if starts("parse_hello") {
        refusal == 5
    } else if starts("Expected complete frame") {
        refusal == 6
    } else if starts("parse_non_attribute_frame") {
        refusal == 7
    } else if starts("to_set") {
        refusal == 8
    } else if starts("attach_attributes") {
        refusal == 9
    } else if starts("MapRes") {
        // a child that is a marker, or a bad key
        refusal == 6 || refusal == 8
    } else {
        false
    }
}

/// The buffer with each declared count that is past what the buffer could hold put down to an affordable one of the same
/// width, since nom reserves for a count before it reads a child. Neither count can be met, so the answer is the same.
/// None where nothing had to change.
pub fn affordable(protocol: Protocol, buf: &[u8]) -> Option<Vec<u8>> {
    let most = buf.len().max(4096);
    let mut changed: Option<Vec<u8>> = None;
    let mut i = 0;
    while i < buf.len() {
        let b = buf[i];
        i += 1;
        let plain = b == b'>' || b == b'|';
        if !(b == b'*' || protocol != Protocol::Resp2 && (plain || b == b'%' || b == b'~')) {
            continue;
        }
        let digits = usize::from(buf.get(i) == Some(&b'+'));
        let from = i + digits;
        let mut to = from;
        while to < buf.len() && buf[to].is_ascii_digit() {
            to += 1;
        }
        if to - from < 4 || buf.get(to..to + 2) != Some(b"\r\n") {
            continue;
        }
        let text = std::str::from_utf8(&buf[from..to]).unwrap();
        let value = if plain { text.parse::<usize>().ok() } else { text.parse::<isize>().ok().map(|v| v as usize) };
        if value.is_some_and(|v| v > most) {
            let smaller = format!("{:0width$}", most + 1, width = to - from);
            changed.get_or_insert_with(|| buf.to_vec())[from..to].copy_from_slice(smaller.as_bytes());
        }
    }
    changed
}
