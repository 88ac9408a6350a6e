//! What can be said of rows alone: beside the buffer that they were decoded from, and flattened as `theirs` flattens the
//! crate's frames.

use crate::theirs::Protocol;

/// Rows read beside the buffer that they were decoded from.
pub struct Rows<'a> {
    pub buf: &'a [u8],
    pub words: &'a [u64],
    pub protocol: Protocol,
    /// Signs of the zero doubles met: the crate leaves to chance whether 0 and -0 are one key (docs/DIFFERENCES.md, A4).
    pub zeros: [bool; 2],
}

/// A line from at on: the end of its text and where the next begins.
pub fn line(buf: &[u8], at: usize) -> Option<(usize, usize)> {
    let n = buf.get(at..)?.windows(2).position(|w| w == b"\r\n")?;
    Some((at + n, at + n + 2))
}

/// The bytes from `from` up to `to`, read by Rust's parser.
fn parsed<T: std::str::FromStr>(buf: &[u8], from: usize, to: usize) -> Option<T> {
    std::str::from_utf8(buf.get(from..to)?).ok()?.parse().ok()
}

/// The length or count behind the type byte at at, in a line whose text ends at end.
pub fn length(buf: &[u8], at: usize, end: usize) -> Option<usize> {
    if b"!=;>|".contains(&buf[at]) {
        parsed::<usize>(buf, at + 1, end)
    } else {
        parsed::<isize>(buf, at + 1, end)?.try_into().ok()
    }
}

impl Rows<'_> {
    fn row(&self, i: usize) -> Option<[u64; 6]> {
        self.words.get(6 * i..6 * i + 6)?.try_into().ok()
    }

    fn text<T: std::str::FromStr>(&self, from: usize, to: usize) -> Option<T> {
        parsed(self.buf, from, to)
    }

    /// Reads the rows in order against the bytes in order: each row must say what stands at its place. Gives the next row
    /// and the next place, or None where a word is wrong.
    pub fn replay(&self, row: usize, at: usize) -> Option<(usize, usize)> {
        let first = self.row(row)?;
        if first[0] != 17 {
            return self.replay_one(row, at, 0);
        }
        if self.protocol == Protocol::Resp2 || *self.buf.get(at)? != b'|' || first[5] != 0 {
            return None;
        }
        let (next, end) = self.replay_holder(row, at, true)?;
        // the frame that the attribute belongs to names its row
        if self.row(next)?[0] == 17 {
            return None;
        }
        self.replay_one(next, end, row as u64 + 1)
    }

    fn replay_holder(&self, row: usize, at: usize, doubled: bool) -> Option<(usize, usize)> {
        let [_, a, b, c, span, _] = self.row(row)?;
        let (end, next) = line(self.buf, at + 1)?;
        let n = length(self.buf, at, end)?;
        let n = if doubled { n.checked_mul(2)? } else { n };
        let (mut r, mut p) = (row + 1, next);
        for _ in 0..n {
            (r, p) = self.replay(r, p)?;
        }
        ((a, b, c, span) == (0, 0, n as u64, (r - row) as u64)).then_some((r, p))
    }

    fn replay_one(&self, row: usize, at: usize, attribute: u64) -> Option<(usize, usize)> {
        let [kind, a, b, c, span, attr] = self.row(row)?;
        if attr != attribute {
            return None;
        }
        let byte = *self.buf.get(at)?;
        let (end, next) = line(self.buf, at + 1)?;
        let leaf = |good: bool, to: usize| (good && span == 1 && to <= self.buf.len()).then_some((row + 1, to));
        let from = at as u64 + 1;
        let resp2 = self.protocol == Protocol::Resp2;
        if resp2 && ![1, 2, 3, 6, 7, 13].contains(&kind) {
            return None;
        }
        match kind {
            1 | 2 | 4 | 10 => {
                let byte_right = byte == [b'+', b'-', 0, b',', 0, 0, 0, 0, 0, b'('][kind as usize - 1];
                let text_right = kind != 4 || self.text::<f64>(at + 1, end).is_some();
                leaf(byte_right && text_right && (a, b, c) == (from, end as u64, 0), next)
            }
            3 => leaf(byte == b':' && (self.text::<i64>(at + 1, end)? as u64, 0, 0) == (a, b, c), next),
            5 => {
                let value = match self.buf.get(at + 1..end)? {
                    b"t" => 1,
                    b"f" => 0,
                    _ => return None,
                };
                leaf(byte == b'#' && (a, b, c) == (value, 0, 0), next)
            }
            6 if resp2 => {
                let minus = self.text::<i64>(at + 1, end)? == -1;
                leaf((byte == b'$' || byte == b'*') && minus && (a, b, c) == (0, 0, 0), next)
            }
            6 => leaf(byte == b'_' && (a, b, c) == (0, 0, 0), next),
            12 => {
                let empty = byte == b';' && self.text::<usize>(at + 1, end) == Some(0);
                leaf((byte == b'.' || empty) && (a, b, c) == (0, 0, 0), next)
            }
            7 | 8 | 9 | 11 => {
                let byte_right = byte == [b'$', b'!', b'=', 0, b';'][kind as usize - 7];
                let n = length(self.buf, at, end)?;
                let to = next.checked_add(n)?;
                let head = if kind == 9 { 4 } else { 0 };
                let format = match (kind, self.buf.get(next..next + 3)) {
                    (9, Some(b"txt")) => 1,
                    (9, Some(b"mkd")) => 2,
                    (9, _) => return None,
                    _ => 0,
                };
                let words_right = (a, b, c) == (next as u64 + head, to as u64, format);
                leaf(byte_right && n >= head as usize && (kind != 11 || n > 0) && words_right, to + 2)
            }
            13..=16 => {
                let byte_right = byte == [b'*', b'%', b'~', b'>'][kind as usize - 13];
                byte_right.then(|| self.replay_holder(row, at, kind == 14))?
            }
            18 => self.replay_hello(row, at, end, next),
            19 => {
                let held = [(b'$', 7), (b'*', 13), (b'%', 14), (b'~', 15)];
                let text = &self.buf[at + 1..end];
                let minus = text == b"?" || self.text::<i64>(at + 1, end) == Some(-1);
                leaf(held.contains(&(byte, c)) && minus && (a, b) == (0, 0), next)
            }
            _ => None,
        }
    }

    fn replay_hello(&self, row: usize, at: usize, end: usize, next: usize) -> Option<(usize, usize)> {
        let [_, a, b, c, span, _] = self.row(row)?;
        let text = self.buf.get(at..end)?;
        let parts: Vec<&[u8]> = text.split(|b| *b == b' ').collect();
        let fields: &[(u64, usize)] = match (parts.len(), parts.get(2).copied(), parts.get(5).copied()) {
            (2, _, _) => &[],
            (4, Some(b"SETNAME"), _) => &[(22, 3)],
            (5, Some(b"AUTH"), _) => &[(20, 3), (21, 4)],
            (7, Some(b"AUTH"), Some(b"SETNAME")) => &[(20, 3), (21, 4), (22, 6)],
            _ => return None,
        };
        let version = if parts[1] == b"2" { 2 } else { 3 };
        let good = parts[0] == b"HELLO" && (parts[1] == b"2" || parts[1] == b"3");
        if !good || (a, b, c, span) != (0, 0, version, 1 + fields.len() as u64) {
            return None;
        }
        for (i, (kind, part)) in fields.iter().enumerate() {
            let from = (at + parts[..*part].iter().map(|p| p.len() + 1).sum::<usize>()) as u64;
            let to = from + parts[*part].len() as u64;
            if self.row(row + 1 + i)? != [*kind, from, to, 0, 1, 0] {
                return None;
            }
        }
        Some((row + 1 + fields.len(), next))
    }

    /// Flattens the frame at row as `theirs` does; gives the row after it. The rows must have passed `replay`.
    pub fn flat(&mut self, row: usize, out: &mut Vec<u64>) -> usize {
        let mut row = row;
        let mut attribute = None;
        if self.words[6 * row] == 17 {
            attribute = Some(row);
            row += self.words[6 * row + 4] as usize;
        }
        let [kind, a, b, c, span, _] = self.row(row).unwrap();
        let end = row + span as usize;
        match kind {
            4 => {
                let value: f64 = self.text(a as usize, b as usize).unwrap();
                if value == 0.0 {
                    self.zeros[usize::from(value.is_sign_negative())] = true;
                }
                out.extend([kind, value.to_bits(), 0, 0]);
            }
            14 | 15 => out.extend([kind, 0, 0, 0]),
            _ => out.extend([kind, a, b, c]),
        }
        match attribute {
            None => out.push(0),
            Some(r) => {
                out.push(1);
                self.pairs(r, out);
            }
        }
        match kind {
            13 | 16 => {
                let mut r = row + 1;
                for _ in 0..c {
                    r = self.flat(r, out);
                }
            }
            14 => self.pairs(row, out),
            15 => self.members(row, out),
            18 => {
                let mut r = row + 1;
                for field in 20..=22 {
                    if r < end && self.words[6 * r] == field {
                        out.extend([1, self.words[6 * r + 1], self.words[6 * r + 2]]);
                        r += 1;
                    } else {
                        out.push(0);
                    }
                }
            }
            _ => {}
        }
        end
    }

    /// The pairs of a Map or attribute row: of equal keys the first on the wire stays.
    fn pairs(&mut self, row: usize, out: &mut Vec<u64>) {
        let n = self.words[6 * row + 3] / 2;
        let mut all: Vec<(Vec<u64>, Vec<u64>)> = Vec::new();
        let mut r = row + 1;
        for _ in 0..n {
            let (mut k, mut v) = (Vec::new(), Vec::new());
            r = self.flat(r, &mut k);
            r = self.flat(r, &mut v);
            all.push((k, v));
        }
        // stable: equal keys stay in wire order
        all.sort_by(|x, y| x.0.cmp(&y.0));
        all.dedup_by(|later, first| later.0 == first.0 && !holds_nan(&first.0));
        let mut all: Vec<Vec<u64>> = all.into_iter().map(|(k, v)| [k, v].concat()).collect();
        all.sort();
        out.push(all.len() as u64);
        out.extend(all.into_iter().flatten());
    }

    fn members(&mut self, row: usize, out: &mut Vec<u64>) {
        let n = self.words[6 * row + 3];
        let mut all: Vec<Vec<u64>> = Vec::new();
        let mut r = row + 1;
        for _ in 0..n {
            let mut m = Vec::new();
            r = self.flat(r, &mut m);
            all.push(m);
        }
        all.sort();
        all.dedup_by(|later, first| later == first && !holds_nan(first));
        out.push(all.len() as u64);
        out.extend(all.into_iter().flatten());
    }
}

/// A key that holds a NaN equals nothing, itself included. A word with those bits that is no double is an offset or a
/// number that no test reaches.
fn holds_nan(key: &[u64]) -> bool {
    key.iter().any(|w| *w == f64::NAN.to_bits() || *w == (-f64::NAN).to_bits())
}
