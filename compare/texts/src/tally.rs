//! Both sides of each check on a text, what they agreed on counted, and the smallest text on which they differ.

use crate::ours::{self, Answer};
use crate::theirs;

type Check = fn(&[u8]) -> Answer;

const CHECKS: [(&str, Check, Check); 6] = [
    ("plain length, usize", ours::plain, theirs::plain),
    ("signed length, isize", ours::signed2, theirs::signed2),
    ("signed length, isize or ?", ours::signed3, theirs::signed3),
    ("Number, i64", ours::number, theirs::number),
    ("double, f64", ours::double, theirs::double),
    ("boolean, t or f", ours::boolean, theirs::boolean),
];

#[derive(Default, Clone)]
struct Row {
    accepted: u64,
    differ: u64,
    smallest: Option<Vec<u8>>,
}

#[derive(Default)]
pub struct Tally {
    texts: u64,
    rows: [Row; CHECKS.len()],
}

/// Fewer bytes first, then the order of the bytes.
fn smaller(a: &[u8], b: &[u8]) -> bool {
    (a.len(), a) < (b.len(), b)
}

impl Row {
    fn differs(&mut self, times: u64, t: &[u8]) {
        self.differ += times;
        if self.smallest.as_ref().map_or(true, |s| smaller(t, s)) {
            self.smallest = Some(t.to_vec());
        }
    }
}

impl Tally {
    pub fn compare(&mut self, t: &[u8]) {
        self.texts += 1;
        for (row, (_, ours, theirs)) in self.rows.iter_mut().zip(CHECKS) {
            let expected = theirs(t);
            row.accepted += u64::from(expected.code != 0);
            if ours(t) != expected {
                row.differs(1, t);
            }
        }
    }

    pub fn add(&mut self, other: &Tally) {
        self.texts += other.texts;
        for (row, more) in self.rows.iter_mut().zip(&other.rows) {
            row.accepted += more.accepted;
            if let Some(t) = &more.smallest {
                row.differs(more.differ, t);
            }
        }
    }

    pub fn differ(&self) -> bool {
        self.rows.iter().any(|r| r.differ > 0)
    }

    pub fn print(&self, what: &str) {
        println!("{what}: {} texts", self.texts);
        for (row, (name, ours, theirs)) in self.rows.iter().zip(CHECKS) {
            println!("  {name}: {} accepted, {} differ", row.accepted, row.differ);
            if let Some(t) = &row.smallest {
                println!(
                    "    smallest: \"{}\", ours {:?}, Rust's {:?}",
                    t.escape_ascii(),
                    ours(t),
                    theirs(t)
                );
            }
        }
    }
}
