//! Holds the digits of u64 and i64 to Rust's own printing.

use crate::generate::Chance;
use crate::show::{commas, show};
use crate::Keys;
use imrazgul::{i64_digits, u64_digits};
use std::time::Instant;

/// Values about each power of ten and of two, as words.
pub fn every_edge() -> Vec<u64> {
    let mut all = vec![0, u64::MAX, i64::MAX as u64, i64::MIN as u64];
    let tens = (0..20).map(|k| 10u64.pow(k));
    let twos = (0..64).map(|k| 1u64 << k);
    for p in tens.chain(twos) {
        for d in 0..4 {
            for n in [p.wrapping_add(d), p.wrapping_sub(d)] {
                all.extend([n, n.wrapping_neg()]);
            }
        }
    }
    all
}

/// The digits of numbers at every edge and by chance, held to Rust's own printing.
pub fn run(keys: &Keys) -> bool {
    let start = Instant::now();
    let seed = keys.number("seed", 1);
    let mut chance = Chance::new(seed);
    let mut calls = 0u64;
    let mut wrong = Vec::new();
    let mut try_one = |n: u64| {
        calls += 2;
        let (u, i) = (n.to_string(), (n as i64).to_string());
        let (bytes, unused) = u64_digits(n);
        if bytes[..] != *format!("{u:0>20}").as_bytes() || unused != 20 - u.len() {
            wrong.push(format!("u64 {n}: {} {unused}", show(&bytes)));
        }
        let (bytes, unused) = i64_digits(n as i64);
        if bytes[..] != *format!("{i:0>20}").as_bytes() || unused != 20 - i.len() {
            wrong.push(format!("i64 {}: {} {unused}", n as i64, show(&bytes)));
        }
    };
    every_edge().into_iter().for_each(&mut try_one);
    (0..200_000).for_each(&mut try_one);
    for _ in 0..keys.number("numbers", 5_000_000) {
        let n = chance.next();
        try_one(n >> chance.below(64));
    }
    println!(
        "digits: {} calls in {:.0} s, seed {seed}, wrong {}",
        commas(calls),
        start.elapsed().as_secs_f64(),
        wrong.len()
    );
    wrong.iter().take(3).for_each(|w| println!("  {w}"));
    wrong.is_empty()
}
