//! Compares our text checks with Rust's own parsers: `usize`, `isize`, `i64` and `f64`.
//!
//!     compare-texts LIST
//!
//! LIST is the file of records that the program `check_texts` goes through. The status is 1 where one text is judged differently.

mod list;
mod ours;
mod tally;
mod texts;
mod theirs;

use std::process::ExitCode;
use tally::Tally;

const LONGEST: usize = 5;
const SEEDS: [u64; 4] = [1, 2, 3, 4];
const PER_SEED: u64 = 2_000_000;

fn main() -> ExitCode {
    let name = std::env::args().nth(1).expect("usage: compare-texts LIST");
    let records = std::fs::read(&name).unwrap_or_else(|e| panic!("{name}: {e}"));

    let mut total = Tally::default();
    let mut run = |what: &str, texts: &mut dyn FnMut(&mut Tally)| {
        let mut tally = Tally::default();
        texts(&mut tally);
        tally.print(what);
        total.add(&tally);
    };

    let mut listed = false;
    run("texts of the list", &mut |c| {
        listed = list::check(&records, &mut |t| c.compare(t))
    });
    for len in 0..=LONGEST {
        run(&format!("every text of {len} bytes"), &mut |c| {
            texts::every(len, &mut |t| c.compare(t))
        });
    }
    run("limits of whole numbers", &mut |c| {
        texts::limits(&mut |t| c.compare(t))
    });
    run("limits of doubles, and words", &mut |c| {
        texts::doubles(&mut |t| c.compare(t))
    });
    for seed in SEEDS {
        run(&format!("6 to 24 bytes, seed {seed}"), &mut |c| {
            texts::random(seed, PER_SEED, &mut |t| c.compare(t))
        });
    }

    total.print("in all");
    if listed && !total.differ() {
        println!("no difference");
        ExitCode::SUCCESS
    } else {
        println!("they differ");
        ExitCode::FAILURE
    }
}
