//! The list that the program `check_texts` goes through: its answers are Rust's.

use crate::ours::Answer;
use crate::theirs;

/// An answer as the list writes it.
fn said(a: Answer) -> String {
    match a.code {
        0 => "-".into(),
        1 => a.value.to_string(),
        _ => "n".into(),
    }
}

/// The answer that a record should have; none for the letters that Rust has no parser for.
fn answer(letter: &[u8], t: &[u8]) -> Option<String> {
    match letter {
        b"p" => Some(said(theirs::plain(t))),
        b"s" => Some(said(theirs::signed2(t))),
        b"t" => Some(said(theirs::signed3(t))),
        b"i" => Some(said(theirs::number(t))),
        b"d" => Some(theirs::double(t).code.to_string()),
        _ => None,
    }
}

/// Says how many records have Rust's answer, and the first that has not. True where all have it.
pub fn check(list: &[u8], see: &mut impl FnMut(&[u8])) -> bool {
    let (mut held, mut other, mut first) = (0, 0, None);
    for (i, line) in list.split(|b| *b == b'\n').enumerate() {
        let fields: Vec<&[u8]> = line.splitn(3, |b| *b == b'\t').collect();
        let [letter, expected, t] = fields[..] else {
            continue;
        };
        see(t);
        match answer(letter, t) {
            None => other += 1,
            Some(a) if a.as_bytes() == expected => held += 1,
            Some(a) if first.is_none() => first = Some((i + 1, t, expected, a)),
            Some(_) => (),
        }
    }
    println!("the list: {held} records have Rust's answer, {other} are of letters that Rust has no parser for");
    if let Some((line, t, expected, a)) = &first {
        println!(
            "  line {line}: \"{}\" has \"{}\", Rust says {a}",
            t.escape_ascii(),
            expected.escape_ascii()
        );
    }
    held > 0 && first.is_none()
}
