//! Frames made by chance from a seed, and damaged copies of them.

use crate::theirs::Protocol;

/// The bytes of RESP2, those of the types first, and CR LF, from which strings are made.
pub const RESP2: &[&[u8]] = &[b"+", b"-", b":", b"$", b"*", b"0", b"1", b"2", b"9", b"?", b"a", b"\r", b"\n", b"\r\n"];

/// The same of RESP3.
pub const RESP3: &[&[u8]] = &[
    b"+", b"-", b":", b",", b"#", b"_", b"$", b"!", b"=", b"(", b";", b".", b"*", b"%", b"~", b">", b"|", b"H", b"0",
    b"1", b"2", b"?", b"t", b"\r", b"\n", b"\r\n",
];
/// Whole heads and whole leaves as tokens, so that keys, attributes and nesting come soon.
pub const HEADS: &[&[u8]] = &[
    b"*1\r\n", b"*2\r\n", b"%1\r\n", b"%2\r\n", b"~1\r\n", b"~2\r\n", b">1\r\n", b"|1\r\n", b"|0\r\n", b"*0\r\n",
    b":1\r\n", b"+a\r\n", b".\r\n", b"_\r\n", b";1\r\na\r\n", b"HELLO 3\r\n", b"$?\r\n", b"*?\r\n", b",-0\r\n",
    b",nan\r\n",
];

/// splitmix64: the same numbers for the same seed everywhere.
pub struct Chance(u64);

impl Chance {
    pub fn new(seed: u64) -> Chance {
        Chance(seed)
    }

    pub fn next(&mut self) -> u64 {
        self.0 = self.0.wrapping_add(0x9e37_79b9_7f4a_7c15);
        let z = (self.0 ^ (self.0 >> 30)).wrapping_mul(0xbf58_476d_1ce4_e5b9);
        let z = (z ^ (z >> 27)).wrapping_mul(0x94d0_49bb_1331_11eb);
        z ^ (z >> 31)
    }

    pub fn below(&mut self, n: usize) -> usize {
        (self.next() % n as u64) as usize
    }

    pub fn one_in(&mut self, n: usize) -> bool {
        self.below(n) == 0
    }

    pub fn pick<'a, T: ?Sized>(&mut self, all: &[&'a T]) -> &'a T {
        all[self.below(all.len())]
    }
}

const NUMBERS: &[&str] = &[
    "0", "1", "7", "-1", "-0", "+5", "007", "-01", "42", "1000", "123456789012345678", "1234567890123456789",
    "9223372036854775807", "-9223372036854775808", "9223372036854775808", "-9223372036854775809", "", "+", "1 ", "a",
    "99999999999999999999", "000000000000000000000000000001",
];
const DOUBLES: &[&str] = &[
    "0", "-0", "1.5", ".5", "5.", "1e3", "1E-3", "-1e+300", "inf", "-Inf", "nan", "infinity", "1e", ".", "e5", "1.2.3",
    "", "1e400",
];
const HELLOS: &[&str] = &[
    "HELLO 2", "HELLO 3", "HELLO 3 SETNAME a", "HELLO 3 AUTH u p", "HELLO 2 AUTH user pw SETNAME me",
    "HELLO 3 AUTH   SETNAME ", "HELLO 4", "HELLO", "HELLO 3 ", "H", "HELLO 3 AUTH u", "HELLO 3 SETNAME a b c",
];
const INSIDE: &[u8] = b"ab09 \r\n$*+:\xff";

pub struct Maker {
    pub chance: Chance,
    protocol: Protocol,
}

impl Maker {
    pub fn new(seed: u64, protocol: Protocol) -> Maker {
        Maker { chance: Chance::new(seed), protocol }
    }

    fn number(&mut self) -> String {
        match self.chance.below(8) {
            // mostly good numbers, some at the edges
            0 => self.chance.pick(NUMBERS).into(),
            1 => (self.chance.next() as i64).to_string(),
            2 => (self.chance.next() as i64 >> self.chance.below(64)).to_string(),
            _ => self.chance.below(100).to_string(),
        }
    }

    /// A length of n, now and then in another writing or a wrong one.
    fn length(&mut self, n: usize) -> String {
        match self.chance.below(40) {
            0 => format!("0{n}"),
            1 => format!("+{n}"),
            2 => format!("{:020}", n),
            3 => (n + 1).to_string(),
            4 => self.chance.pick(NUMBERS).into(),
            _ => n.to_string(),
        }
    }

    fn text(&mut self, out: &mut Vec<u8>, in_line: bool) -> usize {
        let n = if self.chance.one_in(30) { self.chance.below(120) } else { self.chance.below(6) };
        for _ in 0..n {
            let mut b = INSIDE[self.chance.below(INSIDE.len())];
            if in_line && b == b'\n' && out.last() == Some(&b'\r') {
                b = b'x';
            }
            out.push(b);
        }
        n
    }

    fn trailer(&mut self, out: &mut Vec<u8>) {
        out.extend(if self.chance.one_in(20) { b"XY" } else { b"\r\n" });
    }

    fn sized(&mut self, out: &mut Vec<u8>, byte: u8) {
        let mut text = Vec::new();
        let n = if byte == b'=' {
            text.extend(self.chance.pick(&["txt:", "mkd:", "txt?", "mkd:", "txt", "abc:"]).bytes());
            let head = text.len();
            head + self.text(&mut text, false)
        } else {
            self.text(&mut text, false)
        };
        out.push(byte);
        out.extend(self.length(n).bytes());
        out.extend(b"\r\n");
        out.extend(text);
        self.trailer(out);
    }

    fn line(&mut self, out: &mut Vec<u8>, byte: u8, text: &str) {
        out.push(byte);
        out.extend(text.bytes());
        out.extend(b"\r\n");
    }

    fn holder(&mut self, out: &mut Vec<u8>, byte: u8, depth: usize) {
        let n = if self.chance.one_in(40) { self.chance.below(24) } else { self.chance.below(5) };
        out.push(byte);
        out.extend(self.length(n).bytes());
        out.extend(b"\r\n");
        let pairs = byte == b'%' || byte == b'|';
        for i in 0..if pairs { 2 * n } else { n } {
            let key = byte == b'~' || pairs && i % 2 == 0;
            if key && !self.chance.one_in(50) {
                self.key(out);
            } else {
                self.frame(out, depth - 1);
            }
        }
    }

    fn key(&mut self, out: &mut Vec<u8>) {
        let bytes = b"+-:,#_$!=(;.";
        let byte = bytes[self.chance.below(bytes.len())];
        if self.chance.one_in(12) {
            self.holder(out, b'|', 1);
        }
        self.leaf(out, byte);
    }

    fn leaf(&mut self, out: &mut Vec<u8>, byte: u8) {
        match byte {
            b'$' | b'!' | b'=' | b';' => self.sized(out, byte),
            b':' => {
                let text = self.number();
                self.line(out, byte, &text);
            }
            b',' => {
                let text = self.chance.pick(DOUBLES).to_string();
                self.line(out, byte, &text);
            }
            b'#' => {
                let text = self.chance.pick(&["t", "f", "t", "f", "t", "f", "T", ""]).to_string();
                self.line(out, byte, &text);
            }
            b'H' => {
                let text = self.chance.pick(HELLOS).to_string();
                out.extend(text.bytes());
                out.extend(b"\r\n");
            }
            b'_' | b'.' if !self.chance.one_in(10) => self.line(out, byte, ""),
            _ => {
                out.push(byte);
                self.text(out, true);
                out.extend(b"\r\n");
            }
        }
    }

    pub fn frame(&mut self, out: &mut Vec<u8>, depth: usize) {
        let resp2 = self.protocol == Protocol::Resp2;
        let leaves: &[u8] = if resp2 { b"+-::$$$" } else { b"+-:,#_$$!=(;.H" };
        let holders: &[u8] = if resp2 { b"*" } else { b"**%%~>|" };
        if self.chance.one_in(60) {
            let markers: &[&str] =
                if resp2 { &["$-1", "*-1", "*-01"] } else { &["$?", "*?", "%?", "~?", "*-1", "$-1"] };
            out.extend(self.chance.pick(markers).bytes());
            out.extend(b"\r\n");
        } else if depth > 0 && self.chance.one_in(3) {
            let byte = holders[self.chance.below(holders.len())];
            self.holder(out, byte, depth);
            if byte == b'|' {
                self.frame(out, depth - 1);
            }
        } else {
            let byte = leaves[self.chance.below(leaves.len())];
            self.leaf(out, byte);
        }
    }

    /// One to three edits: a byte changed, taken out, put in, said twice, or a piece cut.
    pub fn damage(&mut self, buf: &[u8]) -> Vec<u8> {
        const BYTES: &[u8] = b"+-:,#_$!=(;.*%~>|H0129?\r\n tf\xff";
        let mut out = buf.to_vec();
        for _ in 0..1 + self.chance.below(3) {
            if out.is_empty() {
                break;
            }
            let i = self.chance.below(out.len());
            let b = BYTES[self.chance.below(BYTES.len())];
            match self.chance.below(6) {
                0 | 1 => out[i] = b,
                2 => {
                    out.remove(i);
                }
                3 => out.insert(i, b),
                4 => out[i] ^= 1 << self.chance.below(8),
                _ => {
                    let n = self.chance.below(8).min(out.len() - i);
                    out.drain(i..i + n);
                }
            }
        }
        out
    }
}
