//! Prints the list that `crates/check_crate` replays: buffers with the crate's answers, then the samples of
//! compare/samples.txt.
//!
//! A record, its numbers with the high byte first:
//!
//! - 2 bytes: n, the buffer's length
//! - 1 byte: the decoders that answer so, 1 RESP2, 2 complete, 4 streaming, added up
//! - 1 byte: the rows of the table that is lent
//! - 1 byte: the answer, 0 unfinished, 1 frame, 2 marker, 3 refused
//! - 2 bytes: the refusals that it may be, 2^k for the number k, added up; 1 where it is none
//! - 2 bytes: bytes consumed, 0 unless there is a frame or marker
//! - 2 bytes: r, its rows, 0 unless there is one
//! - n bytes: the buffer
//! - 17 bytes for each row: 1 byte kind, 8 bytes word 1, 2 bytes each words 2 to 5
//!
//! The crate's refusals have words and no number: they allow one number, or a few (`theirs::stands_for`). What of a row is
//! the crate's is said in `wire`. Left out is what the crate can't be asked or what we answer with 10 or 11: counts that
//! nom would reserve too much for (docs/DIFFERENCES.md, A2), 0 and -0 in one frame (A4), a frame at depth 33, more than
//! `ROWS` rows. What the program has to print goes to standard error.

use crate::cells;
use crate::generate::{Maker, HEADS, RESP2, RESP3};
use crate::samples;
use crate::texts;
use crate::theirs::{affordable, decode, stands_for, Protocol, Theirs};
use crate::wire::{tree, Row};
use std::collections::HashSet;
use std::io::Write;

/// The rows that the program's table has.
pub const ROWS: usize = 128;
/// The decoders that are asked together, and share a record where they answer alike.
const TWO: &[Protocol] = &[Protocol::Resp2];
const THREE: &[Protocol] = &[Protocol::Resp3, Protocol::Stream];

/// RESP2's frames of which every prefix is in the list; the P samples of RULES 6.1 that RESP2 has are among them.
const WHOLE2: &[&[u8]] = &[
    b"+OK\r\n", b"$-1\r\n", b"*-01\r\n", b"$3\r\nabcXY", b":-9223372036854775808\r\n", b"-ERR wrong\r\n",
    b"+a\rb\nc\r\r\n", b"$0\r\n\r\n", b"$4\r\n\r\n\r\n\r\n", b"*0\r\n", b"*2\r\n:7\r\n$-1\r\n",
    b"*3\r\n$3\r\nSET\r\n$1\r\nk\r\n$2\r\n\r\n\r\n", b"*2\r\n*2\r\n+a\r\n*0\r\n*1\r\n*-1\r\n:0\r\n",
    b"*+2\r\n$+1\r\nx\r\n*01\r\n-\r\n", b"*2\r\n:1\r\n?\r\n", b"*2\r\n$-2\r\n:1\r\n", b"*1\r\n:1.5\r\n",
];
/// The same for RESP3: its P samples, and each kind once or more.
const WHOLE3: &[&[u8]] = &[
    b"+OK\r\n", b"$-1\r\n", b"$3\r\nabcXY", b"=3\r\ntxt:", b"=7\r\nmkd?abc\r\n", b"%1\r\n*0\r\n:1\r\n",
    b"|1\r\n+k\r\n:7\r\n:9\r\n", b"HELLO 3 SETNAME a\r\n", b"*1\r\n.zz\r\n", b"-ERR\r\r\n", b",-1.5E3\r\n", b"#f\r\n",
    b"_\r\n", b"!2\r\n\r\n\r\n", b"=5\r\ntxt:aXY", b"=5\r\nabc:aXY", b"(123\r\n", b";2\r\nabXY", b";0\r\n",
    b"HELLO 2 AUTH u p SETNAME n\r\n", b"%2\r\n+b\r\n:1\r\n+a\r\n*1\r\n_\r\n", b"~3\r\n:1\r\n:1\r\n$1\r\na\r\n",
    b">2\r\n+m\r\n#t\r\n", b"%3\r\n:2\r\n:1\r\n:1\r\n:2\r\n:2\r\n:3\r\n",
    b"*2\r\n|1\r\n+k\r\n|0\r\n+v\r\n:1\r\n:2\r\n", b"|2\r\n:1\r\n+a\r\n:1\r\n+b\r\n:2\r\n",
    b"%1\r\n|1\r\n#t\r\n_\r\n+k\r\n,inf\r\n", b"|1\r\n+k\r\n:7\r\n*?\r\n", b"|1\r\n~0\r\n:1\r\n:2\r\n",
    b"|0\r\n;1\r\na\r\n", b"|0\r\n|0\r\n:1\r\n", b"*2\r\n:1\r\n%?\r\n", b"*1\r\n|0\r\n~?\r\n",
];
/// Where a frame can stand: what is before it and behind it.
const PLACES: &[(&str, &str)] = &[
    ("", ""),
    ("*2\r\n:1\r\n", ""),
    (">1\r\n", ""),
    ("%1\r\n", ":1\r\n"),
    ("%1\r\n+k\r\n", ""),
    ("~1\r\n", ""),
    ("|1\r\n", ":1\r\n:2\r\n"),
    ("|1\r\n+k\r\n", ":2\r\n"),
    ("|1\r\n+k\r\n:1\r\n", ""),
];

/// What a decode answers.
#[derive(Clone, Debug, PartialEq)]
pub struct Answer {
    /// 0 unfinished, 1 frame, 2 marker, 3 refused.
    pub answer: usize,
    /// The refusals that it may be, 2^k for the number k; 1 where it is none.
    pub refusals: u16,
    pub consumed: usize,
    pub rows: Vec<Row>,
}

impl Answer {
    pub const UNFINISHED: Answer = Answer { answer: 0, refusals: 1, consumed: 0, rows: Vec::new() };

    pub fn refused(refusals: u16) -> Answer {
        Answer { answer: 3, refusals, ..Answer::UNFINISHED }
    }
}

/// The crate's answer; None where it can't be asked or its frame makes too many rows.
pub fn asked(protocol: Protocol, buf: &[u8]) -> Option<Answer> {
    if affordable(protocol, buf).is_some() {
        return None;
    }
    let mut flat = Vec::new();
    let (answer, consumed) = match decode(protocol, buf, &mut flat) {
        Theirs::Unfinished => return Some(Answer::UNFINISHED),
        Theirs::Refused(words) => {
            let refusals = (1..=11).filter(|k| stands_for(&words, *k)).map(|k| 1 << k).sum();
            assert_ne!(refusals, 0, "what the crate's words stand for: {words}");
            return Some(Answer::refused(refusals));
        }
        Theirs::Frame(n) => (1, n),
        Theirs::Marker(n) => (2, n),
    };
    let rows = tree(protocol, buf, consumed, &flat)?;
    (rows.len() <= ROWS).then_some(Answer { answer, refusals: 1, consumed, rows })
}

/// Strings of so many tokens more, in order; what is settled is followed by each token once.
fn strings(protocol: Protocol, tokens: &[&[u8]], left: usize, buf: &mut Vec<u8>, see: &mut impl FnMut(&[u8])) {
    see(buf);
    if left == 0 {
        return;
    }
    let open = matches!(decode(protocol, buf, &mut Vec::new()), Theirs::Unfinished);
    let n = buf.len();
    for t in tokens {
        // CR, LF is the token CR LF
        if *t == b"\n" && buf.last() == Some(&b'\r') {
            continue;
        }
        buf.extend(*t);
        strings(protocol, tokens, if open { left - 1 } else { 0 }, buf, see);
        buf.truncate(n);
    }
}

fn two(n: u64) -> [u8; 2] {
    u16::try_from(n).unwrap().to_be_bytes()
}

#[derive(Default)]
pub struct List {
    bytes: Vec<u8>,
    seen: HashSet<(u8, Vec<u8>)>,
    records: u64,
    /// Answers 0 to 3 of each decoder.
    answers: [[u64; 4]; 3],
    rows: u64,
}

impl List {
    /// A record: what these decoders answer to buf, in a table of so many rows.
    pub fn write(&mut self, decoders: &[Protocol], lent: usize, buf: &[u8], said: &Answer) {
        assert!(lent <= ROWS);
        self.records += 1;
        self.rows += said.rows.len() as u64;
        decoders.iter().for_each(|d| self.answers[*d as usize][said.answer] += 1);
        self.bytes.extend(two(buf.len() as u64));
        self.bytes.push(decoders.iter().map(|d| 1 << *d as u8).sum());
        self.bytes.extend([lent as u8, said.answer as u8]);
        self.bytes.extend(two(said.refusals.into()));
        self.bytes.extend(two(said.consumed as u64));
        self.bytes.extend(two(said.rows.len() as u64));
        self.bytes.extend(buf);
        for [kind, value, rest @ ..] in &said.rows {
            self.bytes.push(u8::try_from(*kind).unwrap());
            self.bytes.extend(value.to_be_bytes());
            rest.iter().for_each(|w| self.bytes.extend(two(*w)));
        }
    }

    /// The crate's answers to buf, if it isn't in the list yet.
    fn put(&mut self, decoders: &[Protocol], buf: &[u8]) {
        if !self.seen.insert((decoders[0] as u8, buf.to_vec())) {
            return;
        }
        // every other frame has just the rows that it needs
        let tight = self.records % 2 == 1;
        let lent = |a: &Answer| if tight && a.consumed > 0 { a.rows.len() } else { ROWS };
        let said: Vec<Option<Answer>> = decoders.iter().map(|d| asked(*d, buf)).collect();
        if said.iter().all(|a| *a == said[0]) {
            said[0].iter().for_each(|a| self.write(decoders, lent(a), buf, a));
            return;
        }
        for (d, a) in decoders.iter().zip(&said) {
            a.iter().for_each(|a| self.write(&[*d], lent(a), buf, a));
        }
    }

    fn prefixes(&mut self, decoders: &[Protocol], buf: &[u8]) {
        (0..=buf.len()).for_each(|n| self.put(decoders, &buf[..n]));
        self.put(decoders, &[buf, b":1\r\n"].concat());
    }

    /// One in `stride` of the strings of up to `most` tokens that begin with one of the first `types` tokens.
    fn strings(&mut self, decoders: &[Protocol], tokens: &[&[u8]], types: usize, most: usize, stride: usize) {
        let mut place = 0;
        for t in &tokens[..types] {
            strings(decoders[0], tokens, most - 1, &mut t.to_vec(), &mut |buf| {
                if place % stride == 0 {
                    self.put(decoders, buf);
                }
                place += 1;
            });
        }
    }

    /// Holders in one another around a leaf. 31 holders and a leaf are the deepest that we take.
    fn depths(&mut self, decoders: &[Protocol], holders: &[&[u8]], leaves: &[&[u8]]) {
        for depth in [1, 2, 15, 16, 30, 31] {
            for holder in holders {
                for leaf in leaves {
                    self.put(decoders, &[&holder.repeat(depth), *leaf].concat());
                }
            }
        }
    }

    /// Frames of the seed that are short, with some prefixes and damaged copies.
    fn frames(&mut self, decoders: &[Protocol], seed: u64, count: u64) {
        let mut maker = Maker::new(seed, decoders[0]);
        for i in 0..count {
            let mut buf = Vec::new();
            maker.frame(&mut buf, 1 + (i % 4) as usize);
            if buf.len() > 100 {
                continue;
            }
            self.put(decoders, &buf);
            for _ in 0..2 {
                let n = maker.chance.below(buf.len());
                self.put(decoders, &buf[..n]);
            }
            for _ in 0..3 {
                let damaged = maker.damage(&buf);
                self.put(decoders, &damaged);
            }
        }
    }

    fn resp2(&mut self) {
        WHOLE2.iter().for_each(|f| self.prefixes(TWO, f));
        for b in 0..=255 {
            self.put(TWO, &[b, b'1', b'\r', b'\n']);
        }
        self.strings(TWO, RESP2, 5, 6, 4_999);
        for text in texts::numbers() {
            for byte in b":$*" {
                self.put(TWO, &[&[*byte], &text[..], b"\r\n"].concat());
            }
        }
        self.depths(TWO, &[b"*1\r\n"], &[b"*0\r\n", b":1\r\n", b"$-1\r\n", b"$1\r\na", b""]);
        self.frames(TWO, 1, 320);
    }

    fn resp3(&mut self) {
        WHOLE3.iter().for_each(|f| self.prefixes(THREE, f));
        for b in 0..=255 {
            self.put(THREE, &[b, b'1', b'\r', b'\n']);
        }
        for frame in cells::FRAMES.iter().flat_map(|(_, _, frames)| *frames) {
            for (before, behind) in PLACES {
                self.put(THREE, [before, *frame, behind].concat().as_bytes());
            }
        }
        self.strings(THREE, RESP3, 18, 4, 1_499);
        self.strings(THREE, HEADS, 9, 5, 4_999);
        // each text behind a third of the type bytes
        for (i, text) in texts::numbers().iter().enumerate() {
            for (j, byte) in b":$!=;*%~>|,#".iter().enumerate() {
                if (i + j) % 3 == 0 {
                    self.put(THREE, &[&[*byte], &text[..], b"\r\n"].concat());
                }
            }
        }
        for (i, text) in texts::doubles().iter().enumerate() {
            if i % 3 == 0 {
                self.put(THREE, &[b",", &text[..], b"\r\n"].concat());
            }
        }
        for text in texts::hellos() {
            self.put(THREE, &[&text[..], b"\r\n"].concat());
        }
        let leaves: &[&[u8]] = &[b"*0\r\n", b"~0\r\n", b"_\r\n", b"HELLO 3 AUTH u p\r\n", b"$?\r\n", b""];
        self.depths(THREE, &[b"*1\r\n", b">1\r\n", b"%1\r\n+k\r\n", b"|1\r\n+k\r\n", b"|1\r\n"], leaves);
        self.frames(THREE, 1, 240);
    }
}

pub fn run() -> bool {
    let mut list = List::default();
    list.resp2();
    list.resp3();
    samples::put(&mut list);
    std::io::stdout().write_all(&list.bytes).unwrap();
    eprintln!("records {}\nrows {}", list.records, list.rows);
    for (name, [unfinished, frames, markers, refused]) in ["RESP2", "complete", "streaming"].iter().zip(list.answers) {
        eprintln!("{name}: frames {frames}, markers {markers}, unfinished {unfinished}, refused {refused}");
    }
    eprintln!("all as the list");
    true
}
