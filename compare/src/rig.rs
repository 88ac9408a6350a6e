//! Holds our decoders to the crate's: answer, bytes consumed, the whole tree, and every word of the table.

use crate::ours::{self, Table};
use crate::rows::Rows;
use crate::show::show;
use crate::tally::Tally;
use crate::theirs::{self, Protocol, Theirs};
use imrazgul::Decoded;
use std::sync::Mutex;

/// The buffer that is being decoded, for a panic's sake.
static CURRENT: Mutex<Vec<u8>> = Mutex::new(Vec::new());

pub struct Rig {
    pub protocol: Protocol,
    table: Table,
    mine: Vec<u64>,
    yours: Vec<u64>,
    pub tally: Tally,
    /// Whether each buffer is kept for a panic's message; too slow for the small ones.
    watch: bool,
}

/// What one buffer showed.
struct Seen {
    said: Decoded,
    fault: Option<String>,
}

impl Rig {
    pub fn new(protocol: Protocol, rows: usize) -> Rig {
        let table = Table::new(6 * rows + 5);
        Rig { protocol, table, mine: Vec::new(), yours: Vec::new(), tally: Tally::default(), watch: rows > 100 }
    }

    /// Our answer alone on a table of so many words, which must be as it was where there is no frame.
    fn call(&mut self, buf: &[u8], words: usize) -> (Decoded, Option<String>) {
        let said = ours::decode(self.protocol, buf, &mut self.table.words[..words]);
        let used = if said.answer == 1 || said.answer == 2 { 6 * said.rows as usize } else { 0 };
        let shape = match said.answer {
            0 => (said.refusal, said.consumed, said.rows) == (0, 0, 0),
            1 => said.refusal == 0 && said.rows > 0 && said.consumed as usize <= buf.len() && used <= words,
            2 => self.protocol == Protocol::Stream && said.refusal == 0 && said.rows > 0 && used <= words,
            3 => (1..=11).contains(&said.refusal) && (said.consumed, said.rows) == (0, 0),
            _ => false,
        };
        if !shape {
            let fault = Some(format!("{said:?} is no answer"));
            self.table.restore_all();
            return (said, fault);
        }
        let fault = (!self.table.untouched_from(used)).then(|| format!("{said:?} changed words past its rows"));
        if fault.is_some() {
            self.table.restore_all();
        }
        (said, fault)
    }

    /// Compares one buffer; the table is clean before and after.
    fn look(&mut self, buf: &[u8]) -> Seen {
        let words = self.table.words();
        let (said, fault) = self.call(buf, words);
        if fault.is_some() {
            return Seen { said, fault };
        }
        let fault = self.hold(buf, said);
        self.table.restore(6 * said.rows as usize);
        Seen { said, fault }
    }

    fn hold(&mut self, buf: &[u8], said: Decoded) -> Option<String> {
        if said.answer == 3 && said.refusal >= 10 {
            // each row takes three bytes or more, but for a row that none is left for; each holder takes four or more
            let rows = (self.table.words() / 6).min(4096);
            let deserved = if said.refusal == 10 { buf.len() >= 32 * 4 } else { buf.len() / 3 + 2 > rows };
            return (!deserved).then(|| format!("{said:?}, and the buffer is too short for it"));
        }
        let smaller = theirs::affordable(self.protocol, buf);
        self.tally.put_down += u64::from(smaller.is_some());
        if self.watch {
            *CURRENT.lock().unwrap() = buf.to_vec();
        }
        let theirs = theirs::decode(self.protocol, smaller.as_deref().unwrap_or(buf), &mut self.yours);
        let crate_said = match theirs {
            Theirs::Unfinished if said.answer == 0 => return None,
            Theirs::Refused(words) if said.answer == 3 => {
                return (!theirs::stands_for(&words, said.refusal))
                    .then(|| format!("we refuse with {}, the crate says: {words}", said.refusal));
            }
            Theirs::Frame(n) if said.answer == 1 && said.consumed == n as u64 => None,
            Theirs::Marker(n) if said.answer == 2 && said.consumed == n as u64 => None,
            Theirs::Unfinished => Some("unfinished".into()),
            Theirs::Refused(words) => Some(format!("refused, {words}")),
            Theirs::Frame(n) => Some(format!("frame, {n} bytes")),
            Theirs::Marker(n) => Some(format!("marker, {n} bytes")),
        };
        if let Some(words) = crate_said {
            return Some(format!("we say {said:?}, the crate: {words}"));
        }
        let mut rows = Rows {
            buf,
            words: &self.table.words[..6 * said.rows as usize],
            protocol: self.protocol,
            zeros: [false; 2],
        };
        if rows.replay(0, 0) != Some((said.rows as usize, said.consumed as usize)) {
            return Some(format!("the rows do not say what stands in the buffer: {:?}", rows.words));
        }
        self.mine.clear();
        rows.flat(0, &mut self.mine);
        if self.mine != self.yours {
            if rows.zeros == [true; 2] {
                self.tally.chance += 1;
                return None;
            }
            return Some(format!("other trees: ours {:?}, the crate's {:?}", self.mine, self.yours));
        }
        None
    }

    /// Compares one buffer and counts it; gives our answer.
    pub fn check(&mut self, buf: &[u8]) -> Decoded {
        let Seen { said, fault } = self.look(buf);
        self.tally.buffers += 1;
        match said.answer {
            0 => self.tally.unfinished += 1,
            1 => self.tally.frames += 1,
            2 => self.tally.markers += 1,
            _ => self.tally.refused[(said.refusal as usize).min(14)] += 1,
        }
        if let Some(why) = fault {
            self.report(buf, why);
        }
        said
    }

    /// Makes a differing buffer smaller while it differs, within some seconds, then notes it.
    fn report(&mut self, buf: &[u8], why: String) {
        let (mut buf, mut why) = (buf.to_vec(), why);
        // bytes that may still be decoded for this
        let mut left: usize = if self.tally.differences < 100 { 20_000_000 } else { 0 };
        let mut n = buf.len() / 2;
        while n > 0 {
            let mut i = 0;
            let before = buf.len();
            while i + n <= buf.len() && left > buf.len() {
                left -= buf.len();
                let mut less = buf.clone();
                less.drain(i..i + n);
                match self.look(&less).fault {
                    Some(w) => (buf, why) = (less, w),
                    None => i += n,
                }
            }
            // a smaller piece once no piece of this size can go
            if buf.len() == before {
                n /= 2;
            } else {
                n = n.min(buf.len());
            }
        }
        self.tally.differ(&buf, why);
    }

    /// What is settled stays settled when bytes follow.
    pub fn follow(&mut self, buf: &[u8], before: Decoded) {
        let after = self.check(buf);
        if after != before {
            self.tally.differ(buf, format!("{before:?} without the last token, {after:?} with it"));
        }
    }

    /// The same bytes behind others, from their place on: the same answer, with offsets from the front. From the end on and
    /// behind it, the answer to no bytes.
    fn places(&mut self, buf: &[u8], said: Decoded) {
        let before = 1 + buf.len() % 9;
        let used = 6 * said.rows as usize;
        ours::decode(self.protocol, buf, &mut self.table.words);
        let mut rows = self.table.words[..used].to_vec();
        for row in rows.chunks_exact_mut(6).filter(|r| has_text(r[0])) {
            row[1] += before as u64;
            row[2] += before as u64;
        }
        self.table.restore(used);
        let shifted = [&b"*1\r\n$1\r\na"[..before], buf].concat();
        let got = ours::decode_at(self.protocol, &shifted, before, &mut self.table.words);
        if got != said || self.table.words[..used] != rows[..] || !self.table.untouched_from(used) {
            self.tally.differ(buf, format!("{said:?}, and from place {before} {got:?}"));
            self.table.restore_all();
        }
        self.table.restore(used);
        let nothing = Decoded { answer: 0, refusal: 0, consumed: 0, rows: 0 };
        for at in [buf.len(), buf.len() + before, usize::MAX] {
            let got = ours::decode_at(self.protocol, buf, at, &mut self.table.words);
            if got != nothing || !self.table.untouched_from(0) {
                self.tally.differ(buf, format!("from place {at} {got:?}"));
                self.table.restore_all();
            }
        }
        self.tally.places += 4;
    }

    /// Tables that are exactly full, one row short, empty, or hold words that make no row; and calls from a place.
    pub fn tables(&mut self, buf: &[u8], said: Decoded) {
        self.places(buf, said);
        let expect = |rig: &mut Rig, words: usize, wanted: &[Decoded]| -> Decoded {
            let (got, fault) = rig.call(buf, words);
            rig.table.restore_all();
            rig.tally.tables += 1;
            if let Some(why) = fault {
                rig.tally.differ(buf, format!("table of {words} words: {why}"));
            } else if !wanted.contains(&got) {
                rig.tally.differ(buf, format!("table of {words} words: {got:?}, wanted {wanted:?}"));
            }
            got
        };
        let full = Decoded { answer: 3, refusal: 11, consumed: 0, rows: 0 };
        if said.answer == 3 && said.refusal == 11 {
            return;
        }
        if said.answer == 1 || said.answer == 2 {
            let used = 6 * said.rows as usize;
            if used + 5 <= self.table.words() {
                expect(self, used, &[said]);
                expect(self, used + 5, &[said]);
                // the rows are the same in any table that has them
                let (_, _) = self.call(buf, used);
                let exact = self.table.words[..used].to_vec();
                self.table.restore_all();
                let all = self.table.words();
                let (_, _) = self.call(buf, all);
                if self.table.words[..used] != exact[..] {
                    self.tally.differ(buf, "other rows in a table exactly full".into());
                }
                self.table.restore_all();
            }
            expect(self, used - 1, &[full]);
            expect(self, used - 6, &[full]);
            expect(self, 0, &[full]);
            return;
        }
        // fewer rows: the same answer or 11, and once the same, the same with more
        let mut same = false;
        for rows in 0..6usize.min(self.table.words() / 6) {
            let got =
                if same { expect(self, 6 * rows, &[said]) } else { expect(self, 6 * rows + rows % 6, &[said, full]) };
            if rows == 0 && got != full {
                self.tally.differ(buf, format!("no row and {got:?}"));
            }
            same |= got == said;
        }
    }
}

/// Whether words 1 and 2 of a row of this kind are offsets.
fn has_text(kind: u64) -> bool {
    [1, 2, 4, 7, 8, 9, 10, 11, 20, 21, 22].contains(&kind)
}

/// Has a panic print the buffer that the crate or our library was given.
pub fn print_on_panic() {
    std::panic::set_hook(Box::new(|p| {
        eprintln!("{p}");
        if let Ok(b) = CURRENT.try_lock() {
            eprintln!("buffer of the slow runs: `{}`", show(&b[..b.len().min(300)]));
        }
    }));
}
