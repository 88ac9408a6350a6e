//! The buffers that our decoders and the crate's are both given.

use crate::generate::{Chance, Maker, HEADS, RESP2, RESP3};
use crate::rig::{print_on_panic, Rig};
use crate::show::{commas, show};
use crate::texts;
use crate::theirs::Protocol;
use crate::Keys;
use imrazgul::Decoded;
use std::time::Instant;

impl Rig {
    fn enumerate(&mut self, tokens: &[&[u8]], left: usize, buf: &mut Vec<u8>) {
        let said = self.check(buf);
        if self.tally.buffers % 64 == 0 {
            self.tables(buf, said);
        }
        if left == 0 {
            return;
        }
        for t in tokens {
            // CR, LF is the token CR LF
            if *t == b"\n" && buf.last() == Some(&b'\r') {
                continue;
            }
            let n = buf.len();
            buf.extend(*t);
            if said.answer == 0 {
                self.enumerate(tokens, left - 1, buf);
            } else {
                self.follow(buf, said);
            }
            buf.truncate(n);
        }
    }

    /// Every string of so many tokens that begins with one of the first `types` tokens; what is settled is followed by each
    /// token once.
    pub fn strings(&mut self, tokens: &[&[u8]], types: usize, most: usize) {
        let before = self.tally.buffers;
        for t in &tokens[..types] {
            let mut buf = t.to_vec();
            self.enumerate(tokens, most - 1, &mut buf);
        }
        let all: Vec<String> = tokens.iter().map(|t| show(t)).collect();
        println!("  strings of up to {most} tokens of {}: {}", all.join(" "), commas(self.tally.buffers - before));
    }

    /// A frame with every prefix, bytes behind it, and tables.
    fn prefixes(&mut self, buf: &[u8]) {
        for n in 0..buf.len() {
            self.check(&buf[..n]);
        }
        let said = self.check(buf);
        self.tables(buf, said);
        let mut more = buf.to_vec();
        more.extend(b":1\r\n");
        if said.answer != 0 {
            self.follow(&more, said);
        }
    }

    pub fn frames(&mut self, seed: u64, count: u64) {
        let before = (self.tally.buffers, self.tally.frames);
        let mut maker = Maker::new(seed, self.protocol);
        let mut buf = Vec::new();
        for i in 0..count {
            buf.clear();
            maker.frame(&mut buf, 1 + (i % 5) as usize);
            if buf.len() < 400 {
                self.prefixes(&buf);
            } else {
                let said = self.check(&buf);
                self.tables(&buf, said);
                for _ in 0..60 {
                    let n = maker.chance.below(buf.len());
                    self.check(&buf[..n]);
                }
            }
            for _ in 0..20 {
                let damaged = maker.damage(&buf);
                let said = self.check(&damaged);
                if maker.chance.one_in(8) {
                    self.tables(&damaged, said);
                }
            }
        }
        println!(
            "  {} frames of seed {seed} with prefixes and damaged copies: {}, of them whole frames {}",
            commas(count),
            commas(self.tally.buffers - before.0),
            commas(self.tally.frames - before.1)
        );
    }

    /// Each type byte before each number, double and Hello text of the fixed list, with what may follow.
    pub fn limits(&mut self) {
        let before = self.tally.buffers;
        let types: &[u8] = if self.protocol == Protocol::Resp2 { b"+-:$*" } else { b"+-:,#_$!=(;.*%~>|H" };
        let after: &[&[u8]] =
            &[b"", b"\r", b"\r\n", b"\r\nabcdefgh\r\n", b"\r\n:1\r\n+a\r\n:2\r\n+b\r\n", b"\r\n\r\n", b"\r\r\n"];
        let mut buf = Vec::new();
        for t in texts::every() {
            for byte in types {
                for a in after {
                    for before in [&b""[..], b"*1\r\n", b"*2\r\n:1\r\n"] {
                        buf.clear();
                        buf.extend(before);
                        if *byte != b'H' {
                            buf.push(*byte);
                        }
                        buf.extend(&t);
                        buf.extend(*a);
                        let said = self.check(&buf);
                        self.tables(&buf, said);
                    }
                }
            }
        }
        // every byte alone, and before a line
        for b in 0..=255u8 {
            self.check(&[b]);
            self.prefixes(&[b, b'1', b'\r', b'\n', b'a', b'\r', b'\n']);
        }
        println!("  limits of each text behind each type byte: {}", commas(self.tally.buffers - before));
    }

    /// Nesting about the depth limit, by each holder and mixed.
    pub fn depths(&mut self) {
        let before = self.tally.buffers;
        let holders: &[&[u8]] = if self.protocol == Protocol::Resp2 {
            &[b"*1\r\n"]
        } else {
            &[b"*1\r\n", b">1\r\n", b"%1\r\n+k\r\n", b"|1\r\n+k\r\n"]
        };
        let leaves: &[&[u8]] = if self.protocol == Protocol::Resp2 {
            &[b"*0\r\n", b":1\r\n", b"$-1\r\n", b""]
        } else {
            &[b"*0\r\n", b"~0\r\n", b":1\r\n", b"_\r\n", b"HELLO 3 AUTH u p\r\n", b"$?\r\n", b""]
        };
        let mut chance = Chance::new(33);
        for depth in 0..=40usize {
            for leaf in leaves {
                for which in 0..holders.len() + 4 {
                    let path: Vec<usize> = (0..depth)
                        .map(|_| if which < holders.len() { which } else { chance.below(holders.len()) })
                        .collect();
                    let mut buf: Vec<u8> = path.iter().flat_map(|h| holders[*h].to_vec()).collect();
                    buf.extend(*leaf);
                    // an attribute's pairs are whole; its frame follows
                    for h in path.iter().rev() {
                        if holders[*h].starts_with(b"|") {
                            buf.extend(b":9\r\n");
                        }
                    }
                    let deep = depth + usize::from(!leaf.is_empty());
                    let said = self.check(&buf);
                    self.tables(&buf, said);
                    if !leaf.is_empty()
                        && !leaf.starts_with(b"$?")
                        && (said.answer == 3 && said.refusal == 10) != (deep > 32)
                    {
                        self.tally.differ(&buf, format!("depth {deep} and {said:?}"));
                    }
                    for n in [buf.len().saturating_sub(1), buf.len() / 2, 4] {
                        self.check(&buf[..n.min(buf.len())]);
                    }
                }
            }
        }
        println!("  nesting of up to 41: {}", commas(self.tally.buffers - before));
    }

    /// Frames of very many rows and very many bytes. Needs a table of more than 4,096 rows.
    pub fn large(&mut self) {
        let before = self.tally.buffers;
        let full = Decoded { answer: 3, refusal: 11, consumed: 0, rows: 0 };
        let holders: &[(&str, usize, usize)] = if self.protocol == Protocol::Resp2 {
            &[("*", 1, 1)]
        } else {
            &[("*", 1, 1), (">", 1, 1), ("~", 1, 1), ("%", 2, 1), ("|", 2, 2)]
        };
        for (byte, each, own) in holders {
            for rows in [4000usize, 4094, 4095, 4096, 4097, 4098, 5000] {
                let n = (rows - own) / each;
                let mut buf = format!("{byte}{n}\r\n").into_bytes();
                for i in 0..n * each {
                    buf.extend(format!(":{i}\r\n").bytes());
                }
                if *byte == "|" {
                    buf.extend(b"+of\r\n");
                }
                let needed = n * each + own;
                let said = self.check(&buf);
                if (said == full) != (needed > 4096) {
                    self.tally.differ(&buf[..buf.len().min(40)], format!("{needed} rows needed and {said:?}"));
                }
                self.tables(&buf, said);
                for cut in [1, 2, buf.len() / 2] {
                    self.check(&buf[..buf.len() - cut]);
                }
            }
        }
        for n in [0usize, 1, 63, 64, 65, 1000, 65_535, 1 << 20] {
            for (head, tail) in [("$", "\r\n"), ("+", "\r\n"), ("-", "\r\n")] {
                for fill in [b'a', b'\r', b'\n'] {
                    let mut buf = if head == "$" { format!("${n}\r\n").into_bytes() } else { head.into() };
                    buf.extend(std::iter::repeat_n(fill, n));
                    buf.extend(tail.bytes());
                    self.check(&buf);
                    self.check(&buf[..buf.len() - 1]);
                    self.check(&buf[..buf.len() - 2]);
                }
            }
        }
        // a line end at every place about the blocks that a fast scan takes, with lone CRs before it
        for n in 0..300usize {
            for cr in [usize::MAX, 0, 1, 7, 8, 9, 15, 16, 23, 24, 25, 31, 32, 63, 64, 127, 128, 135, 136, 137, 263, 264, 265] {
                let mut buf = b"+".to_vec();
                buf.extend(std::iter::repeat_n(b'x', n));
                if cr < n {
                    buf[1 + cr] = b'\r';
                }
                buf.extend(b"\r\n:1\r\n");
                self.check(&buf);
                self.check(&buf[..n + 2]);
                self.check(&buf[..n + 3]);
                buf.extend(std::iter::repeat_n(b'y', 300));
                self.check(&buf);
            }
        }
        println!("  large frames and long lines: {}", commas(self.tally.buffers - before));
    }

    /// Recorded traffic, one frame after another, each also at every cut of its first 300 bytes.
    pub fn traffic(&mut self, folder: &str) {
        let before = self.tally.buffers;
        let mut files: Vec<_> = std::fs::read_dir(folder).unwrap().map(|f| f.unwrap().path()).collect();
        files.sort();
        let mut names = 0;
        for path in files.iter().filter(|p| p.extension().is_some_and(|e| e == "resp")) {
            let bytes = std::fs::read(path).unwrap();
            names += 1;
            let mut at = 0;
            while at < bytes.len() {
                let rest = &bytes[at..(at + 400_000).min(bytes.len())];
                let said = self.check(rest);
                if said.answer == 1 || said.answer == 2 {
                    for n in 0..(said.consumed as usize).min(300) {
                        self.check(&rest[..n]);
                    }
                    at += said.consumed as usize;
                } else {
                    break;
                }
            }
        }
        println!("  recorded traffic, {names} files: {}", commas(self.tally.buffers - before));
    }
}

/// Every byte that a length or number line is made of.
const DIGITS: &[&[u8]] = &[
    b"$", b"!", b"=", b";", b"*", b"%", b"~", b">", b"|", b":", b",", b"0", b"1", b"-", b"+", b"?", b"e", b".", b"\r\n",
];

pub fn run(protocol: Protocol, keys: &Keys) -> bool {
    print_on_panic();
    let start = Instant::now();
    let name = format!("{protocol:?}").to_lowercase();
    println!("{name}:");
    let mut rig = Rig::new(protocol, 32);
    if protocol == Protocol::Resp2 {
        rig.strings(RESP2, 5, keys.number("tokens2", 7) as usize);
    } else {
        rig.strings(RESP3, 18, keys.number("tokens3", 5) as usize);
        rig.strings(HEADS, 9, keys.number("heads", 6) as usize);
        rig.strings(DIGITS, 11, keys.number("lines", 5) as usize);
    }
    rig.limits();
    let mut large = Rig::new(protocol, 5000);
    large.tally = std::mem::take(&mut rig.tally);
    large.large();
    if let Some(folder) = keys.text("traffic") {
        large.traffic(folder);
    }
    let mut rig = Rig::new(protocol, 300);
    rig.tally = large.tally;
    rig.depths();
    rig.frames(keys.number("seed", 1), keys.number("frames", 200_000));
    rig.tally.print(&name, start.elapsed().as_secs_f64())
}
