//! Settles the cells of the kind table (RULES 1.7): one run of the crate for each kind in each position.

use crate::show::show;
use redis_protocol::resp3::decode::streaming::decode_range;
use redis_protocol::resp3::types::DecodedRangeFrame;

/// Frames of each code that can stand as a key or carry an attribute.
pub const FRAMES: &[(u8, &str, &[&str])] = &[
    (1, "SimpleString", &["+a\r\n"]),
    (2, "SimpleError", &["-a\r\n"]),
    (3, "Number", &[":1\r\n"]),
    (4, "Double", &[",1.5\r\n", ",nan\r\n"]),
    (5, "Boolean", &["#t\r\n"]),
    (6, "Null", &["_\r\n"]),
    (7, "BlobString", &["$1\r\na\r\n"]),
    (8, "BlobError", &["!1\r\na\r\n"]),
    (9, "Verbatim", &["=5\r\ntxt:a\r\n"]),
    (10, "BigNumber", &["(1\r\n"]),
    (11, "ChunkedString", &[";1\r\na\r\n"]),
    (12, "EndStream", &[".\r\n", ";0\r\n"]),
    (13, "Array", &["*0\r\n", "*1\r\n:1\r\n"]),
    (14, "Map", &["%0\r\n", "%1\r\n:1\r\n:1\r\n"]),
    (15, "Set", &["~0\r\n", "~1\r\n:1\r\n"]),
    (16, "Push", &[">0\r\n", ">1\r\n:1\r\n"]),
    (17, "Attribute", &["|0\r\n:1\r\n"]),
    (18, "Hello", &["HELLO 3\r\n"]),
    (19, "marker", &["$?\r\n", "*?\r\n", "%?\r\n", "~?\r\n"]),
];

const KEYS: &[(&str, &str, &str)] =
    &[("map key", "%1\r\n", ":1\r\n"), ("set member", "~1\r\n", ""), ("attribute key", "|1\r\n", ":1\r\n:2\r\n")];

/// The part of the crate's words that says why: not the input, which it repeats, nor a wrapped error's frame.
fn reason(details: &str) -> String {
    let first = details.split(" at ").next().unwrap();
    match first.split_once("RedisProtocolError { details: \"") {
        Some((before, inner)) => format!("{before}{}", inner.split('"').next().unwrap()),
        None => first.into(),
    }
}

/// A cell of a markdown table.
fn cell(input: &str) -> String {
    show(input.as_bytes()).replace('|', "\\|")
}

/// What the crate's streaming decoder says, and whether it gave a frame or a marker.
fn ask(input: &str) -> (bool, String) {
    match decode_range(input.as_bytes()) {
        Ok(Some((DecodedRangeFrame::Complete(f), n))) => (true, format!("{:?}, {n} bytes", f.kind())),
        Ok(Some((DecodedRangeFrame::Streaming(f), n))) => (true, format!("marker of {:?}, {n} bytes", f.kind)),
        Ok(None) => (false, "unfinished".into()),
        Err(e) => (false, format!("refused: {}", reason(e.details()))),
    }
}

fn yes(b: bool) -> &'static str {
    if b {
        "yes"
    } else {
        "no"
    }
}

/// Prints the table; true where the columns are what docs/DIFFERENCES.md has at A1: keys 1 to 12, attributes all but 6, 11, 12, 17, 18.
pub fn run() -> bool {
    println!("`~` is CR LF, SET the type byte of a Set. Each line is one call of the crate's streaming decoder.\n");
    println!("| code | kind | position | input | the crate's answer | allowed |");
    println!("|---|---|---|---|---|---|");
    let mut keys = Vec::new();
    let mut carriers = Vec::new();
    let mut mixed = Vec::new();
    for (code, kind, frames) in FRAMES {
        let mut key = Vec::new();
        let mut carries = Vec::new();
        for f in *frames {
            // an attribute before a key belongs to the key, so code 17 has no such cell
            for (position, before, after) in KEYS.iter().filter(|_| *code != 17) {
                let input = format!("{before}{f}{after}");
                let (ok, said) = ask(&input);
                println!("| {code} | {kind} | {position} | `{}` | {said} | {} |", cell(&input), yes(ok));
                key.push(ok);
            }
            let input = format!("|1\r\n+k\r\n:1\r\n{f}");
            let (ok, said) = ask(&input);
            println!("| {code} | {kind} | carries an attribute | `{}` | {said} | {} |", cell(&input), yes(ok));
            carries.push(ok);
        }
        for (cells, column) in [(&key, &mut keys), (&carries, &mut carriers)] {
            if !cells.is_empty() && cells.iter().all(|b| *b) {
                column.push(*code);
            } else if cells.iter().any(|b| *b) {
                mixed.push(*code);
            }
        }
    }
    let settled: Vec<u8> = (1..=12).collect();
    let carry: Vec<u8> = (1..=19).filter(|k| ![6, 11, 12, 17, 18].contains(k)).collect();
    let right = keys == settled && carriers == carry && mixed.is_empty();
    println!("\n| code | kind | key or set member | may carry an attribute |");
    println!("|---|---|---|---|");
    for (code, kind, _) in FRAMES {
        println!("| {code} | {kind} | {} | {} |", yes(keys.contains(code)), yes(carriers.contains(code)));
    }
    println!("\nkey column: {keys:?}");
    println!("attribute column: {carriers:?}");
    println!("codes whose runs differ among themselves: {mixed:?}");
    println!("as docs/DIFFERENCES.md has the columns, A1: {}", yes(right));
    right
}
