//! The frame of the crate that a table means, by RULES 5.2, and how far the crate's length of it is off.

use redis_protocol::resp2::types::OwnedFrame;

/// The frame that the row at row means and the row after it, or None where the table is not encodable.
pub fn frame(src: &[u8], table: &[u64], row: usize, end: usize, depth: usize) -> Option<(OwnedFrame, usize)> {
    if row >= end || depth == 0 {
        return None;
    }
    let [kind, a, b, c, span, attr]: [u64; 6] = table[6 * row..6 * row + 6].try_into().unwrap();
    if attr != 0 {
        return None;
    }
    let text = || src.get(usize::try_from(a).ok()?..usize::try_from(b).ok()?).map(|t| t.to_vec());
    if kind == 13 {
        let own = span.checked_add(row as u64)?;
        if (a, b) != (0, 0) || span == 0 || own > end as u64 {
            return None;
        }
        let mut r = row + 1;
        let mut kids = Vec::new();
        for _ in 0..c {
            let (f, next) = frame(src, table, r, own as usize, depth - 1)?;
            kids.push(f);
            r = next;
        }
        return (r as u64 == own).then_some((OwnedFrame::Array(kids), r));
    }
    if c != 0 || span != 1 {
        return None;
    }
    let leaf = match kind {
        1 => OwnedFrame::SimpleString(text()?),
        // where it is no UTF-8 the crate cannot hold it: outside the domain, but encodable
        2 => OwnedFrame::Error(String::from_utf8(text()?).unwrap_or(NOT_UTF8.into())),
        3 if b == 0 => OwnedFrame::Integer(a as i64),
        6 if (a, b) == (0, 0) => OwnedFrame::Null,
        7 => OwnedFrame::BulkString(text()?),
        _ => return None,
    };
    Some((leaf, row + 1))
}

/// Stands for an error text that the crate cannot hold.
const NOT_UTF8: &str = "\u{0}not UTF-8\u{0}";

pub fn outside(f: &OwnedFrame) -> bool {
    match f {
        OwnedFrame::Array(kids) => kids.iter().any(outside),
        OwnedFrame::Error(t) => t == NOT_UTF8,
        _ => false,
    }
}

/// How many bytes too many the crate's length says: a floating log10 takes a number just below a power of ten for it
/// (docs/DIFFERENCES.md, A3).
pub fn too_many(f: &OwnedFrame, flag: bool) -> usize {
    let digits = |n: u64| redis_protocol::digits_in_usize(n as usize) - n.to_string().len();
    match f {
        OwnedFrame::Array(kids) => digits(kids.len() as u64) + kids.iter().map(|k| too_many(k, flag)).sum::<usize>(),
        OwnedFrame::Integer(n) => {
            let more = digits(n.unsigned_abs());
            let width = n.to_string().len();
            let head = if flag { (width + more).to_string().len() - width.to_string().len() } else { 0 };
            more + head
        }
        _ => 0,
    }
}
