//! Prints the list that `crates/check_encode` replays: tables with the bytes that the crate writes for their frames, then
//! the samples of compare/encode-samples.txt.
//!
//! A record, its numbers with the high byte first:
//!
//! - 2 bytes: n, the source's length
//! - 2 bytes: m, how many bytes say the table's words
//! - 1 byte: the flags with this answer, 1 clear, 2 set, added up
//! - 1 byte: the refusal, 0 where it is none
//! - 2 bytes: k, how many bytes are written, 0 where it is refused
//! - n bytes: the source
//! - m bytes that say the words: a byte below 254 a word, itself; 255 the word of the 8 bytes behind it; 254 the six words
//!   before it, as many times more as the 2 bytes behind it say
//! - k bytes: what is written
//!
//! Bytes and their number are what the crate's `encode` writes. Its `encode_len` isn't asked for the length: it says one too
//! many for integers just below 10^15, 10^16, 10^17 and 10^18 (docs/DIFFERENCES.md, A3), and those are in the list with the
//! true length. What the program has to print goes to standard error.

use crate::generate::Maker;
use crate::list::asked;
use crate::samples::{buffer, rows};
use crate::tables::{frame, outside, too_many};
use crate::theirs::Protocol;
use redis_protocol::resp2::encode::encode;
use redis_protocol::resp2::types::{OwnedFrame, Resp2Frame};
use std::collections::HashSet;
use std::io::Write;

const SAMPLES: &str = include_str!("../encode-samples.txt");
/// What the program's output holds before a call: no answer may hold it.
const MARK: u8 = 167;
/// The refusal of a table that isn't encodable.
const UNFIT: u8 = 13;
/// The kinds that RESP2 has.
const KINDS: [u64; 6] = [1, 2, 3, 6, 7, 13];

/// The frame that a table means, by RULES 5.2.
fn meant(src: &[u8], table: &[u64]) -> Option<OwnedFrame> {
    frame(src, table, 0, (table.len() / 6).min(4096), 32).map(|(f, _)| f)
}

/// The bytes that the crate writes.
fn written(f: &OwnedFrame, flag: bool) -> Vec<u8> {
    let mut out = vec![0; f.encode_len(flag)];
    let n = encode(&mut out, f, flag).unwrap();
    assert_eq!(n + too_many(f, flag), out.len(), "the crate's length of {f:?}");
    out.truncate(n);
    out
}

fn two(n: usize) -> [u8; 2] {
    u16::try_from(n).unwrap().to_be_bytes()
}

/// The bytes that say the words.
fn said(words: &[u64]) -> Vec<u8> {
    let mut out = Vec::new();
    let mut at = 0;
    while at < words.len() {
        let again = |row: &[u64]| row == &words[at - 6..at];
        let times = if at < 6 { 0 } else { words[at..].chunks_exact(6).take_while(|row| again(row)).count() };
        if times > 0 {
            out.push(254);
            out.extend(two(times));
            at += 6 * times;
            continue;
        }
        match words[at] {
            w @ 0..=253 => out.push(w as u8),
            w => {
                out.push(255);
                out.extend(w.to_be_bytes());
            }
        }
        at += 1;
    }
    out
}

#[derive(Default)]
struct List {
    bytes: Vec<u8>,
    seen: HashSet<(Vec<u8>, Vec<u64>)>,
    records: u64,
    /// Tables written and refused, with the flag clear and set.
    answers: [[u64; 2]; 2],
    /// Answers whose length the crate takes too high.
    a3: u64,
}

impl List {
    /// A record: what a table gives with these flags, bytes or a refusal.
    fn write(&mut self, flags: &[bool], src: &[u8], table: &[u64], answer: Option<&[u8]>) {
        let words = said(table);
        let bytes = answer.unwrap_or_default();
        assert!(!bytes.contains(&MARK));
        self.records += 1;
        flags.iter().for_each(|f| self.answers[usize::from(*f)][usize::from(answer.is_none())] += 1);
        self.bytes.extend(two(src.len()));
        self.bytes.extend(two(words.len()));
        self.bytes.push(flags.iter().map(|f| 1 + u8::from(*f)).sum());
        self.bytes.push(if answer.is_none() { UNFIT } else { 0 });
        self.bytes.extend(two(bytes.len()));
        self.bytes.extend(src);
        self.bytes.extend(words);
        self.bytes.extend(bytes);
    }

    /// What the crate writes for a table's frame, with both flags, if it isn't in the list yet.
    fn put(&mut self, src: &[u8], table: &[u64]) {
        let f = meant(src, table).unwrap();
        if outside(&f) || !self.seen.insert((src.to_vec(), table.to_vec())) {
            return;
        }
        let [clear, set] = [false, true].map(|flag| {
            self.a3 += u64::from(too_many(&f, flag) > 0);
            written(&f, flag)
        });
        if clear == set {
            self.write(&[false, true], src, table, Some(&clear));
        } else {
            self.write(&[false], src, table, Some(&clear));
            self.write(&[true], src, table, Some(&set));
        }
    }

    /// A text of each kind that has one, with bytes before it and behind it in the source.
    fn text(&mut self, text: &[u8]) {
        let src = [b"<", text, b">"].concat();
        for kind in [1, 2, 7] {
            self.put(&src, &[kind, 1, 1 + text.len() as u64, 0, 1, 0]);
        }
    }

    /// Integers about each power of ten, and at the limits.
    fn numbers(&mut self) {
        let mut all: Vec<i64> = vec![0, 7, 42, i64::MAX, i64::MAX - 1, i64::MIN, i64::MIN + 1];
        for p in (0..19).map(|k| 10i64.pow(k)) {
            all.extend([p - 2, p - 1, p, p + 1].iter().flat_map(|n| [*n, -n]));
        }
        all.iter().for_each(|n| self.put(b"", &[3, *n as u64, 0, 0, 1, 0]));
    }

    /// Frames of the seed that are short, as the crate decodes them: the buffer is the source.
    fn frames(&mut self, seed: u64, count: u64) {
        let mut maker = Maker::new(seed, Protocol::Resp2);
        for i in 0..count {
            let mut buf = Vec::new();
            maker.frame(&mut buf, 1 + (i % 4) as usize);
            let rows = asked(Protocol::Resp2, &buf).map(|a| a.rows).unwrap_or_default();
            if !rows.is_empty() && buf.len() <= 100 && !buf.contains(&MARK) {
                self.put(&buf, &rows.concat());
            }
        }
    }

    fn crate_writes(&mut self) {
        self.numbers();
        for text in [
            "", "a", "OK", "\r\n", "a\r\nb", "\r", "\n", "\r\n\r\n", "ERR wrong", "\u{0}", "\u{e9}\u{20ac}", "+a",
            "$-1\r\n",
        ] {
            self.text(text.as_bytes());
        }
        for n in [9, 10, 11, 99, 100, 101, 999, 1000] {
            self.put(&vec![b'x'; n], &[7, 0, n as u64, 0, 1, 0]);
        }
        let every: Vec<u8> = (0..=255).filter(|b| *b != MARK).collect();
        for kind in [1, 7] {
            self.put(&every, &[kind, 0, every.len() as u64, 0, 1, 0]);
        }
        let src = b"abc";
        let leaves: [&[u64]; 6] = [
            &[1, 0, 2, 0, 1, 0],
            &[2, 1, 3, 0, 1, 0],
            &[3, u64::MAX, 0, 0, 1, 0],
            &[6, 0, 0, 0, 1, 0],
            &[7, 0, 3, 0, 1, 0],
            &[13, 0, 0, 0, 1, 0],
        ];
        for a in leaves {
            for b in leaves {
                self.put(src, &[&[13, 0, 0, 2, 3, 0], a, b].concat());
            }
            for n in [1, 3, 9, 10, 99, 100] {
                self.put(src, &[&[13, 0, 0, n, 1 + n, 0], &a.repeat(n as usize)[..]].concat());
            }
            for depth in [2, 3, 10, 16, 31, 32] {
                let mut table: Vec<u64> = (1..depth).flat_map(|d| [13, 0, 0, 1, depth - d + 1, 0]).collect();
                table.extend(a);
                self.put(src, &table);
            }
        }
        self.frames(1, 400);
    }

    fn samples(&mut self) {
        // each word of each kind for which a table is refused, and each for which there is a reason why not
        let mut met: HashSet<String> = HashSet::new();
        let mut never: HashSet<String> = HashSet::new();
        for line in SAMPLES.lines().filter(|l| !l.is_empty() && !l.starts_with('#')) {
            if let Some((what, _)) = line.strip_prefix("none ").and_then(|l| l.split_once(':')) {
                never.insert(what.into());
                continue;
            }
            let parts: Vec<&str> = line.split('`').collect();
            let (flags, name) = parts[0].split_once(' ').unwrap();
            let flags: &[bool] = match flags {
                "clear" => &[false],
                "set" => &[true],
                "both" => &[false, true],
                _ => panic!("no flags {flags}"),
            };
            let src = buffer(parts[1]);
            if let Some(text) = parts[2].strip_suffix("refused 13") {
                let table = words(text);
                let span = table.get(4).map_or(0, |n| n.wrapping_add(2));
                let beneath = [&[13, 0, 0, 2, span, 0, 6, 0, 0, 0, 1, 0], &table[..]].concat();
                for t in [table, beneath] {
                    assert!(meant(&src, &t).is_none(), "a frame: {line}");
                    self.write(flags, &src, &t, None);
                }
                met.insert(name.trim().into());
                continue;
            }
            let (text, n) = parts[2].split_once("writes").unwrap();
            let (table, bytes) = (words(text), buffer(parts[3]));
            assert_eq!(n.trim(), bytes.len().to_string(), "{line}");
            let f = meant(&src, &table).unwrap_or_else(|| panic!("no frame: {line}"));
            flags.iter().for_each(|flag| assert_eq!(written(&f, *flag), bytes, "the crate's bytes: {line}"));
            self.write(flags, &src, &table, Some(&bytes));
        }
        for kind in KINDS {
            for word in 1..6 {
                let at = format!("{kind}.{word}");
                assert!(met.contains(&at) != never.contains(&at), "kind {kind}, word {word}: one sample or one reason");
            }
        }
    }
}

/// The words of a sample's table.
fn words(text: &str) -> Vec<u64> {
    let numbers = |t: &str| t.split(',').map(|w| w.trim().parse().unwrap()).collect::<Vec<u64>>();
    let mut out = Vec::new();
    for part in text.split(';').map(str::trim).filter(|p| !p.is_empty()) {
        if let Some((n, row)) = part.split_once('*') {
            out.extend(numbers(row).repeat(n.trim().parse().unwrap()));
        } else if part.contains("..") {
            out.extend(rows(part).concat());
        } else {
            out.extend(numbers(part));
        }
    }
    out
}

pub fn run() -> bool {
    let mut list = List::default();
    list.crate_writes();
    eprintln!("from the crate: {} records, {} bytes, A3 in {}", list.records, list.bytes.len(), list.a3);
    list.samples();
    std::io::stdout().write_all(&list.bytes).unwrap();
    eprintln!("records {}", list.records);
    for (name, [written, refused]) in ["clear", "set"].iter().zip(list.answers) {
        eprintln!("flag {name}: written {written}, refused {refused}");
    }
    eprintln!("all as the list");
    true
}
