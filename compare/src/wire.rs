//! The crate's frames as rows, in the order of the wire.
//!
//! The crate keeps Maps, Sets and attributes in hash tables: the order is lost, and equal keys are held once. So where
//! RESP3's frames are made into rows, each frame of the tree is decoded by the crate from where the one before it ended.
//! From the crate are a row's kind, the offsets of its text, a Number's and a Boolean's value, a Verbatim's format,
//! Hello's version and fields, what a marker announces, and where each frame ends. Not from the crate: a Double's offsets
//! are those of its line's text, and a RESP3 holder has as many children as Rust reads in its line; order, spans and
//! word 5 follow. `tree` holds all of it to the frame that the crate gives for the whole buffer.

use crate::rows::{length, line, Rows};
use crate::theirs::{code, Protocol};
use redis_protocol::resp2;
use redis_protocol::resp3::decode::streaming::decode_range;
use redis_protocol::resp3::types::{DecodedRangeFrame, RangeFrame, RespVersion, VerbatimStringFormat};

pub type Row = [u64; 6];

fn tree2(f: &resp2::types::RangeFrame, out: &mut Vec<Row>) {
    use resp2::types::RangeFrame::*;
    let at = out.len();
    match f {
        SimpleString(r) => out.push([1, r.0 as u64, r.1 as u64, 0, 1, 0]),
        Error(r) => out.push([2, r.0 as u64, r.1 as u64, 0, 1, 0]),
        Integer(n) => out.push([3, *n as u64, 0, 0, 1, 0]),
        Null => out.push([6, 0, 0, 0, 1, 0]),
        BulkString(r) => out.push([7, r.0 as u64, r.1 as u64, 0, 1, 0]),
        Array(fs) => {
            out.push([13, 0, 0, fs.len() as u64, 0, 0]);
            fs.iter().for_each(|f| tree2(f, out));
            out[at][4] = (out.len() - at) as u64;
        }
    }
}

/// A holder's row and its children; gives where they end. Word 3 is the count, twice for pairs.
fn holder(buf: &[u8], at: usize, kind: u64, attribute: u64, out: &mut Vec<Row>) -> usize {
    let row = out.len();
    let (end, mut next) = line(buf, at + 1).unwrap();
    let n = length(buf, at, end).unwrap() * if kind == 14 || kind == 17 { 2 } else { 1 };
    out.push([kind, 0, 0, n as u64, 0, attribute]);
    for _ in 0..n {
        next = frame(buf, next, out);
    }
    out[row][4] = (out.len() - row) as u64;
    next
}

/// The frame at a place with its attribute, if it has one; gives where it ends.
fn frame(buf: &[u8], at: usize, out: &mut Vec<Row>) -> usize {
    if buf[at] != b'|' {
        return one(buf, at, 0, out);
    }
    let row = out.len() as u64;
    let next = holder(buf, at, 17, 0, out);
    one(buf, next, row + 1, out)
}

fn one(buf: &[u8], at: usize, attribute: u64, out: &mut Vec<Row>) -> usize {
    let (f, n) = decode_range(&buf[at..]).unwrap().unwrap();
    let DecodedRangeFrame::Complete(f) = f else {
        let DecodedRangeFrame::Streaming(f) = f else { unreachable!() };
        out.push([19, 0, 0, code(&f.kind), 1, attribute]);
        return at + n;
    };
    let kind = code(&f.kind());
    let text = |r: &(usize, usize)| [(at + r.0) as u64, (at + r.1) as u64];
    let mut leaf = |[a, b]: [u64; 2], c: u64| out.push([kind, a, b, c, 1, attribute]);
    match &f {
        RangeFrame::SimpleString { data, .. }
        | RangeFrame::SimpleError { data, .. }
        | RangeFrame::BlobString { data, .. }
        | RangeFrame::BlobError { data, .. }
        | RangeFrame::BigNumber { data, .. } => leaf(text(data), 0),
        RangeFrame::VerbatimString { data, format, .. } => {
            leaf(text(data), if *format == VerbatimStringFormat::Text { 1 } else { 2 })
        }
        RangeFrame::Double { .. } => leaf([at as u64 + 1, line(buf, at + 1).unwrap().0 as u64], 0),
        RangeFrame::Boolean { data, .. } => leaf([u64::from(*data), 0], 0),
        RangeFrame::Number { data, .. } => leaf([*data as u64, 0], 0),
        // an EndStream is an empty chunk to the crate
        RangeFrame::ChunkedString(data) => leaf(if kind == 12 { [0, 0] } else { text(data) }, 0),
        RangeFrame::Null => leaf([0, 0], 0),
        RangeFrame::Hello { version, username, password, setname } => {
            let fields: Vec<Row> = [(20, username), (21, password), (22, setname)]
                .iter()
                .filter_map(|(kind, r)| r.as_ref().map(|r| [*kind, text(r)[0], text(r)[1], 0, 1, 0]))
                .collect();
            let version = if *version == RespVersion::RESP2 { 2 } else { 3 };
            out.push([kind, 0, 0, version, 1 + fields.len() as u64, attribute]);
            out.extend(fields);
        }
        RangeFrame::Array { .. } | RangeFrame::Map { .. } | RangeFrame::Set { .. } | RangeFrame::Push { .. } => {
            assert_eq!(holder(buf, at, kind, attribute, out), at + n);
        }
    }
    at + n
}

/// The rows of the frame or marker that the crate's decoder gave, n bytes long and flattened by `theirs` into flat. None
/// where 0 and -0 both occur, and the crate leaves to chance whether they are one key (docs/DIFFERENCES.md, A4).
pub fn tree(protocol: Protocol, buf: &[u8], n: usize, flat: &[u64]) -> Option<Vec<Row>> {
    let mut out = Vec::new();
    if protocol == Protocol::Resp2 {
        tree2(&resp2::decode::decode_range(buf).unwrap().unwrap().0, &mut out);
    } else {
        assert_eq!(frame(buf, 0, &mut out), n);
    }
    let words = out.concat();
    let mut rows = Rows { buf, words: &words, protocol, zeros: [false; 2] };
    let mut mine = Vec::new();
    rows.flat(0, &mut mine);
    if rows.zeros == [true; 2] {
        return None;
    }
    assert_eq!(mine, flat, "the crate's frame of {buf:?}");
    Some(out)
}
