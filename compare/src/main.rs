//! Compares our library with the crate redis-protocol; compare/run builds it and compare/README.md says what each mode does.

use compare::{cells, encodes, list, notes, seeds, texts, Keys};
#[cfg(feature = "ours")]
use compare::{decode, digits, encode, theirs::Protocol};

fn mode(name: &str, keys: &Keys) -> Option<bool> {
    #[cfg(feature = "ours")]
    {
        match name {
            "resp2" => return Some(decode::run(Protocol::Resp2, keys)),
            "resp3" => return Some(decode::run(Protocol::Resp3, keys)),
            "stream" => return Some(decode::run(Protocol::Stream, keys)),
            "encode" => return Some(encode::run(keys)),
            "digits" => return Some(digits::run(keys)),
            _ => {}
        }
    }
    match name {
        "cells" => Some(cells::run()),
        "notes" => Some(notes::run()),
        "texts-list" => Some(texts::run()),
        "answers-list" => Some(list::run()),
        "encodes-list" => Some(encodes::run()),
        "seeds" => Some(seeds::run(keys)),
        _ => None,
    }
}

fn main() {
    let (keys, modes): (Vec<String>, Vec<String>) = std::env::args().skip(1).partition(|w| w.contains('='));
    let keys = Keys(keys);
    if modes.first().is_some_and(|m| m == "one") {
        notes::one(&modes[1..]);
        return;
    }
    let mut good = true;
    for name in &modes {
        match mode(name, &keys) {
            Some(g) => good &= g,
            None => {
                eprintln!("compare: no mode {name}");
                std::process::exit(2);
            }
        }
    }
    std::process::exit(if good { 0 } else { 1 });
}
