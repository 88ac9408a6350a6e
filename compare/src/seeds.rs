//! Writes buffers for a fuzzer to begin with, one a file: the samples of compare/samples.txt and the frames of recorded
//! traffic.

use crate::samples;
use crate::theirs::{decode, Protocol, Theirs};
use crate::Keys;
use std::collections::BTreeSet;

/// Longer frames say nothing that a shorter one doesn't, and slow the fuzzer down.
const LONGEST: usize = 4096;
/// So many of the frames of one file, evenly: a recorded pipeline has thousands that are alike.
const FROM_EACH: usize = 100;

fn frames(bytes: &[u8]) -> Vec<&[u8]> {
    let mut out = Vec::new();
    for protocol in [Protocol::Resp2, Protocol::Stream] {
        let mut at = 0;
        while let Theirs::Frame(n) | Theirs::Marker(n) = decode(protocol, &bytes[at..], &mut Vec::new()) {
            out.push(&bytes[at..at + n]);
            at += n;
        }
    }
    out
}

pub fn run(keys: &Keys) -> bool {
    let to = keys.text("to").expect("seeds: to=FOLDER");
    let mut all: BTreeSet<Vec<u8>> = samples::buffers().collect();
    if let Some(folder) = keys.text("traffic") {
        for path in std::fs::read_dir(folder).unwrap().map(|f| f.unwrap().path()) {
            if path.extension().is_some_and(|e| e == "resp") {
                let bytes = std::fs::read(path).unwrap();
                let some: Vec<&[u8]> = frames(&bytes).into_iter().filter(|f| f.len() <= LONGEST).collect();
                all.extend(some.iter().step_by(some.len() / FROM_EACH + 1).map(|f| f.to_vec()));
            }
        }
    }
    std::fs::create_dir_all(to).unwrap();
    for (i, buf) in all.iter().enumerate() {
        std::fs::write(format!("{to}/{i:04}"), buf).unwrap();
    }
    println!("seeds: {} buffers", all.len());
    true
}
