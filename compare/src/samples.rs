//! The samples of compare/samples.txt, which says how they are written, as records of the list.

use crate::list::{asked, Answer, List};
use crate::theirs::Protocol;
use crate::wire::Row;
use std::collections::HashSet;

const SAMPLES: &str = include_str!("../samples.txt");
const PLACES: [&str; 8] = ["top", "child", "key", "value", "member", "attribute-key", "attribute-value", "annotated"];

fn decoders(text: &str) -> Vec<Protocol> {
    let one = |c| match c {
        '2' => Protocol::Resp2,
        'C' => Protocol::Resp3,
        'S' => Protocol::Stream,
        _ => panic!("no decoder {c}"),
    };
    text.chars().map(one).collect()
}

pub fn buffer(text: &str) -> Vec<u8> {
    let mut rest = text;
    let mut out = Vec::new();
    while let Some(c) = rest.chars().next() {
        if let Some((times, behind)) = rest.strip_prefix('{').and_then(|r| r.split_once(' ')) {
            let (inner, behind) = behind.split_once('}').unwrap();
            out.extend(buffer(inner).repeat(times.parse().unwrap()));
            rest = behind;
        } else if rest.starts_with("SET") && !rest.starts_with("SETNAME") {
            out.push(b'~');
            rest = &rest[3..];
        } else {
            match c {
                '~' => out.extend(b"\r\n"),
                '^' => out.push(b'\r'),
                _ => out.extend(c.to_string().bytes()),
            }
            rest = &rest[c.len_utf8()..];
        }
    }
    out
}

fn row(text: &str) -> Row {
    let words: Vec<u64> = text.trim().split(',').map(|w| w.parse().unwrap()).collect();
    words.try_into().unwrap()
}

pub fn rows(text: &str) -> Vec<Row> {
    let mut out = Vec::new();
    for part in text.split(';') {
        let (first, last) = part.split_once("..").unwrap_or((part, part));
        let mut next = row(first);
        while next != row(last) {
            out.push(next);
            next[4] -= 1;
        }
        out.push(next);
    }
    out
}

fn answer(text: &str) -> Answer {
    if text == "unfinished" {
        return Answer::UNFINISHED;
    }
    let (word, rest) = text.split_once(' ').unwrap();
    if word == "refused" {
        return Answer::refused(1 << rest.parse::<u16>().unwrap());
    }
    let (bytes, tree) = rest.split_once(':').unwrap();
    let answer = ["frame", "marker"].iter().position(|w| *w == word).unwrap() + 1;
    Answer { answer, refusals: 1, consumed: bytes.parse().unwrap(), rows: rows(tree) }
}

/// The refusals that a word of a `none` line stands for.
fn numbers(text: &str) -> Vec<u16> {
    if text == "any" {
        (1..=11).collect()
    } else {
        vec![text.parse().unwrap()]
    }
}

/// The places that a word of a `none` line stands for.
fn places(text: &str) -> Vec<&str> {
    if text == "any" {
        PLACES.to_vec()
    } else {
        vec![text]
    }
}

/// Holds a sample to the crate, where it can be asked: 10 and 11 are ours alone.
fn is_theirs(protocol: Protocol, buf: &[u8], said: &Answer) -> bool {
    if said.refusals >= 1 << 10 {
        return true;
    }
    asked(protocol, buf).is_none_or(|crate_said| {
        (said.refusals & crate_said.refusals) != 0 && Answer { refusals: said.refusals, ..crate_said } == *said
    })
}

/// The lines that are samples or reasons why there is none.
fn lines() -> impl Iterator<Item = &'static str> {
    SAMPLES.lines().filter(|l| !l.is_empty() && !l.starts_with('#'))
}

/// The buffers of all samples.
pub fn buffers() -> impl Iterator<Item = Vec<u8>> {
    lines().filter(|l| !l.starts_with("none ")).map(|l| buffer(l.split('`').nth(1).unwrap()))
}

pub fn put(list: &mut List) {
    // each decoder, refusal and place that has a sample, and each that has a reason why not
    let mut met: HashSet<(u8, u16, &str)> = HashSet::new();
    let mut never: HashSet<(u8, u16, &str)> = HashSet::new();
    for text in lines() {
        if let Some(none) = text.strip_prefix("none ") {
            let words: Vec<&str> = none.split_once(':').unwrap().0.split(' ').collect();
            for d in decoders(words[0]) {
                for k in numbers(words[1]) {
                    never.extend(places(words[2]).iter().map(|p| (d as u8, k, *p)));
                }
            }
            continue;
        }
        let parts: Vec<&str> = text.split('`').collect();
        let words: Vec<&str> = parts[0].split_whitespace().collect();
        let (by, lent) = (decoders(words[0]), words[1].parse().unwrap());
        let (buf, said) = (buffer(parts[1]), answer(parts[2].trim()));
        list.write(&by, lent, &buf, &said);
        if said.answer != 0 && !buf.is_empty() {
            assert!(said.answer == 3 || said.consumed == buf.len(), "{text}");
            list.write(&by, lent, &buf[..buf.len() - 1], &Answer::UNFINISHED);
        }
        for d in by {
            assert!(is_theirs(d, &buf, &said), "the crate's answer to {text}: {:?}", asked(d, &buf));
            if said.answer == 3 {
                met.insert((d as u8, said.refusals.trailing_zeros() as u16, words[2]));
            }
        }
    }
    for d in 0..3 {
        for k in 1..=11 {
            for p in PLACES {
                let at = (d, k, p);
                assert!(
                    met.contains(&at) != never.contains(&at),
                    "decoder {d}, refusal {k}, {p}: one sample or one reason"
                );
            }
        }
    }
}
