//! Shows again, by runs of the crate, what it does with the inputs A1 to A6 of docs/DIFFERENCES.md.

use crate::show::show;
use redis_protocol::resp2::{self, types::Resp2Frame};
use redis_protocol::resp3::{self, types::RangeFrame};
use std::process::Command;

fn answer(resp2: bool, buf: &[u8]) -> String {
    let said = if resp2 {
        resp2::decode::decode_range(buf).map(|o| o.map(|(f, n)| (format!("{f:?}"), n)))
    } else {
        resp3::decode::complete::decode_range(buf).map(|o| o.map(|(f, n)| (format!("{:?}", f.kind()), n)))
    };
    match said {
        Ok(None) => "unfinished".into(),
        Ok(Some((f, n))) => format!("{f}, {n} bytes"),
        Err(e) => format!("refused: {}", e.details()),
    }
}

/// Decodes one buffer and prints the crate's answer: what `apart` runs, since the crate may end the process.
pub fn one(words: &[String]) -> bool {
    let buf: Vec<u8> =
        (0..words[1].len() / 2).map(|i| u8::from_str_radix(&words[1][2 * i..2 * i + 2], 16).unwrap()).collect();
    println!("{}", answer(words[0] == "resp2", &buf));
    true
}

/// The crate's answer, asked in a process of its own.
fn apart(resp2: bool, buf: &[u8]) -> String {
    let hex: String = buf.iter().map(|b| format!("{b:02x}")).collect();
    let out = Command::new(std::env::current_exe().unwrap())
        .args(["one", if resp2 { "resp2" } else { "resp3" }, &hex])
        .output()
        .unwrap();
    if out.status.success() {
        return String::from_utf8_lossy(&out.stdout).trim().into();
    }
    let words = String::from_utf8_lossy(&out.stderr).into_owned();
    let why = words.lines().find(|l| l.contains("overflow") || l.contains("memory allocation")).unwrap_or("").trim();
    format!("{}: {why}", if out.status.code() == Some(101) { "panics" } else { "the process is aborted" })
}

fn pairs(buf: &[u8]) -> (usize, Vec<String>) {
    match resp3::decode::complete::decode_range(buf) {
        Ok(Some((RangeFrame::Map { data, .. }, _))) => (
            data.len(),
            data.values()
                .map(|v| {
                    if let RangeFrame::SimpleString { data, .. } = v {
                        show(&buf[data.0..data.1])
                    } else {
                        "?".into()
                    }
                })
                .collect(),
        ),
        _ => (0, vec![]),
    }
}

pub fn run() -> bool {
    println!("| | call | input | the crate |");
    println!("|---|---|---|---|");
    let line = |fact: &str, call: &str, input: &[u8], said: String| {
        println!("| {fact} | {call} | `{}` | {} |", show(input).replace('|', "\\|"), said.replace('|', "\\|"));
    };
    for input in ["%1\r\n.\r\n:1\r\n", "%1\r\n;1\r\na\r\n:1\r\n", "~1\r\n.\r\n", "|1\r\n.\r\n:1\r\n:2\r\n"] {
        line("A1", "RESP3", input.as_bytes(), answer(false, input.as_bytes()));
    }
    for (resp2, input) in [
        (false, "*88686269585142076\r\n"),
        (true, "*384307168202282326\r\n"),
        (false, ">18446744073709551615\r\n"),
        (false, "*1000000000000\r\n"),
        (false, "*4096\r\n"),
    ] {
        line("A2", if resp2 { "RESP2" } else { "RESP3" }, input.as_bytes(), apart(resp2, input.as_bytes()));
    }
    for n in [999_999_999_999_998i64, 99_999_999_999_999, 999_999_999_999_999_999, -999_999_999_999_999] {
        let f = resp2::types::OwnedFrame::Integer(n);
        let true_len = n.to_string().len() + 3;
        let exact = resp2::encode::encode(&mut vec![0; true_len], &f, false);
        let wrote = resp2::encode::encode(&mut vec![0; 32], &f, false);
        let said = format!(
            "asks for {}, writes {:?}; into {true_len} bytes: {:?}",
            f.encode_len(false),
            wrote.ok(),
            exact.map_err(|e| e.kind().to_str())
        );
        line("A3", "RESP2 encode", format!(":{n}").as_bytes(), said);
    }
    for k in 1..=18 {
        // a logarithm that doesn't fall takes the last numbers below a power of ten for it, if any
        let (mut wrong, mut right) = (10usize.pow(k), 10usize.pow(k - 1));
        while wrong - right > 1 {
            let n = right + (wrong - right) / 2;
            if redis_protocol::digits_in_usize(n) > k as usize {
                wrong = n;
            } else {
                right = n;
            }
        }
        if wrong < 10usize.pow(k) {
            line(
                "A3",
                "RESP2 length",
                format!(":{wrong}").as_bytes(),
                format!("the first below 10^{k} with a digit too many"),
            );
        }
    }
    let zeros = b"%2\r\n,0\r\n:1\r\n,-0\r\n:2\r\n";
    let mut counts = [0u32; 3];
    for _ in 0..100_000 {
        counts[pairs(zeros).0] += 1;
    }
    line("A4", "RESP3", zeros, format!("of 100,000 calls: one pair {}, two pairs {}", counts[1], counts[2]));
    for input in [
        "%2\r\n+k\r\n+a\r\n+k\r\n+b\r\n", "%2\r\n:1\r\n+a\r\n:1\r\n+b\r\n", "%2\r\n,nan\r\n+a\r\n,nan\r\n+b\r\n",
        "%2\r\n_\r\n+a\r\n_x\r\n+b\r\n",
    ] {
        let (n, mut values) = pairs(input.as_bytes());
        values.sort();
        line("A5", "RESP3", input.as_bytes(), format!("{n} pairs, values {}", values.join(" ")));
    }
    for input in ["|9223372036854775808\r\n", "|18446744073709551615\r\n", "|18446744073709551616\r\n"] {
        line("A6", "RESP3", input.as_bytes(), apart(false, input.as_bytes()));
    }
    true
}
