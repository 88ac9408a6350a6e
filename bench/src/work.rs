//! The inputs that are measured.

use redis_protocol::resp2::decode::decode_range;
use std::path::Path;

pub struct Work {
    pub name: String,
    pub bytes: Vec<u8>,
    /// Frames in bytes, decoded one after another; the time is given for one of them.
    pub frames: usize,
    /// Cut short: every decoder waits for more.
    pub unfinished: bool,
    /// Only RESP3 has it.
    pub resp3_only: bool,
}

fn whole(name: &str, bytes: impl Into<Vec<u8>>) -> Work {
    Work { name: name.into(), bytes: bytes.into(), frames: 1, unfinished: false, resp3_only: false }
}

fn three(name: &str, bytes: impl Into<Vec<u8>>) -> Work {
    Work { resp3_only: true, ..whole(name, bytes) }
}

fn cut(name: &str, bytes: &[u8], n: usize) -> Work {
    Work { unfinished: true, ..whole(name, &bytes[..n]) }
}

fn blob(n: usize) -> Vec<u8> {
    let mut out = format!("${n}\r\n").into_bytes();
    out.extend((0..n).map(|i| b'a' + (i % 26) as u8));
    out.extend(b"\r\n");
    out
}

fn array(byte: char, count: usize, items: impl Iterator<Item = Vec<u8>>) -> Vec<u8> {
    let mut out = format!("{byte}{count}\r\n").into_bytes();
    items.for_each(|i| out.extend(i));
    out
}

fn command(words: &[&str]) -> Vec<u8> {
    array('*', words.len(), words.iter().map(|w| format!("${}\r\n{w}\r\n", w.len()).into_bytes()))
}

/// The first commands of a COMMAND DOCS reply, as many as need at most 4,096 rows; with how many of all.
fn docs(reply: &[u8]) -> (Vec<u8>, usize, usize) {
    let head = reply.windows(2).position(|w| w == b"\r\n").unwrap() + 2;
    let all: usize = std::str::from_utf8(&reply[1..head - 2]).unwrap().parse().unwrap();
    let mut table = vec![0; 6 * 4096];
    let (mut at, mut rows, mut taken) = (head, 1, 0);
    while taken + 2 <= all {
        let mut end = at;
        let mut more = 0;
        for _ in 0..2 {
            end += decode_range(&reply[end..]).unwrap().unwrap().1;
        }
        let mut p = at;
        while p < end {
            let said = imrazgul::resp2_decode(&reply[p..end], &mut table);
            more += said.rows;
            p += said.consumed as usize;
        }
        if rows + more > 4096 {
            break;
        }
        (at, rows, taken) = (end, rows + more, taken + 2);
    }
    let mut out = format!("*{taken}\r\n").into_bytes();
    out.extend(&reply[head..at]);
    (out, taken / 2, all / 2)
}

pub fn all(traffic: Option<&str>) -> Vec<Work> {
    let read = |name: &str| traffic.and_then(|t| std::fs::read(Path::new(t).join(name)).ok());
    let pipeline = read("c-pipeline-set-10000.resp").unwrap_or_else(|| {
        (0..10_000).flat_map(|i| command(&["SET", &format!("key:{i:06}"), &format!("value-{i}")])).collect()
    });
    let lanes = |byte, count| {
        array(
            byte,
            count,
            (0..100).map(|i| format!("$7\r\nlane:{i:02}\r\n${}\r\n{}\r\n", 8, 10_000_000 + i * 7919).into_bytes()),
        )
    };
    let lanes2 = read("r2-hgetall-100.resp").unwrap_or_else(|| lanes('*', 200));
    let lanes3 = read("r3-hgetall-100.resp").unwrap_or_else(|| lanes('%', 100));
    let ints = read("r2-eval-4000-ints.resp").unwrap_or_else(|| {
        array('*', 4000, (0..4000).map(|i| format!(":{}\r\n", i * 104_729 % 10_000_019).into_bytes()))
    });
    let blobs = array('*', 1000, (0..1000).map(|_| blob(32)));
    let line: Vec<u8> = [b"+".to_vec(), vec![b'x'; 60_000], b"\r\n".to_vec()].concat();
    let mib = blob(1 << 20);
    let set = command(&["SET", "key:000001", "value-1"]);
    let mut deep = b"*1\r\n".repeat(31);
    deep.extend(b"*0\r\n");
    let seven = array('%', 7, (0..7).map(|i| format!("$6\r\nlane:{i}\r\n:{}\r\n", 40 + i).into_bytes()));
    let mut works = vec![
        whole("`+OK`", *b"+OK\r\n"),
        whole("`:7`", *b":7\r\n"),
        whole("`$5` blob", *b"$5\r\nhello\r\n"),
        whole("SET command", set.clone()),
        Work { frames: 10_000, ..whole("10,000 SET commands, each", pipeline) },
        whole("100 lanes, array", lanes2.clone()),
        three("100 lanes, map", lanes3),
        three("`_`", *b"_\r\n"),
        three("`#t`", *b"#t\r\n"),
        three("`,` and 7 digits", *b",3.141592\r\n"),
        three("`(` and 43 digits", *b"(3492890328409238509324850943850943825024385\r\n"),
        three("`=` Verbatim", *b"=9\r\ntxt:hello\r\n"),
        three("map of two", *b"%2\r\n$4\r\nlane\r\n:42\r\n$2\r\nup\r\n#t\r\n"),
        three("map of seven", seven),
        three("set of three", *b"~3\r\n+rx\r\n+tx\r\n+err\r\n"),
        three("push", *b">3\r\n$7\r\nmessage\r\n$5\r\nlanes\r\n$2\r\nup\r\n"),
        three("attribute and blob", *b"|1\r\n+ttl\r\n:3600\r\n$5\r\nhello\r\n"),
        whole("4,000 integers", ints.clone()),
        whole("1,000 blobs of 32", blobs),
        whole("1 MiB blob", mib.clone()),
        whole("60 KB line", line.clone()),
    ];
    if let Some(reply) = read("r2-command-docs.resp") {
        let (bytes, some, all) = docs(&reply);
        works.push(whole(&format!("COMMAND DOCS, {some} of {all}"), bytes));
    }
    works.extend([
        whole("32 deep", deep.clone()),
        cut("unfinished `+OK` and CR", b"+OK\r\n", 4),
        cut("unfinished empty", b"", 0),
        cut("unfinished SET command, half", &set, set.len() / 2),
        cut("unfinished 100 lanes, last byte", &lanes2, lanes2.len() - 1),
        cut("unfinished 4,000 integers, last byte", &ints, ints.len() - 1),
        cut("unfinished 1 MiB blob, last byte", &mib, mib.len() - 1),
        cut("unfinished 60 KB line, last byte", &line, line.len() - 1),
        cut("unfinished 32 deep, last byte", &deep, deep.len() - 1),
    ]);
    works
}
