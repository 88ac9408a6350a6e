//! Times our library, the crate and hiredis on the same bytes in one run, and measures the stack that a decode takes.

mod encode;
mod hiredis;
mod stack;
mod work;

use hiredis::{Reader, Said};
use redis_protocol::{resp2, resp3};
use std::hint::black_box;
use std::time::Instant;
use work::Work;

type Decode = fn(&[u8], &mut [u64]) -> imrazgul::Decoded;

/// A way to do a work so many times; false where an answer is another than the work says.
type Run<'a> = Box<dyn FnMut(u64) -> bool + 'a>;

/// The turns stand around the call itself, so that a turn adds next to nothing to it.
fn turns<'a>(mut once: impl FnMut() -> bool + 'a) -> Run<'a> {
    Box::new(move |n| (0..n).all(|_| once()))
}

fn ours<'a>(work: &'a Work, decode: impl Fn(&[u8], &mut [u64]) -> imrazgul::Decoded + 'a) -> Run<'a> {
    let mut table = vec![0u64; 6 * 4096];
    turns(move || {
        let bytes = black_box(&work.bytes[..]);
        let mut at = 0;
        for _ in 0..work.frames {
            let said = decode(&bytes[at..], &mut table);
            black_box(&said);
            at += said.consumed as usize;
            if said.answer != u64::from(!work.unfinished) {
                return false;
            }
        }
        work.unfinished || at == bytes.len()
    })
}

fn theirs<'a, F: 'a, E: 'a>(
    work: &'a Work,
    decode: impl Fn(&[u8]) -> Result<Option<(F, usize)>, E> + 'a,
) -> Run<'a> {
    turns(move || {
        let bytes = black_box(&work.bytes[..]);
        let mut at = 0;
        for _ in 0..work.frames {
            let said = decode(&bytes[at..]);
            black_box(&said);
            match said {
                Ok(Some((_, n))) if !work.unfinished => at += n,
                Ok(None) => return work.unfinished,
                _ => return false,
            }
        }
        at == bytes.len()
    })
}

fn hiredis<'a>(work: &'a Work, objects: bool) -> Run<'a> {
    if work.unfinished {
        // it keeps what it was fed, so each call has a reader of its own
        return turns(move || {
            let mut reader = Reader::new(objects);
            reader.feed(black_box(&work.bytes));
            reader.reply() == Said::Unfinished
        });
    }
    let mut reader = Reader::new(objects);
    if work.frames > 1 {
        // in pieces, as it reads from a socket: it moves what it has not read at nearly each reply
        return turns(move || {
            let mut replies = 0;
            for piece in black_box(&work.bytes).chunks(16 << 10) {
                reader.feed(piece);
                while reader.reply() == Said::Reply {
                    replies += 1;
                }
            }
            replies == work.frames
        });
    }
    turns(move || {
        reader.feed(black_box(&work.bytes));
        reader.reply() == Said::Reply
    })
}

/// Nanoseconds of n turns, with so many bytes more on the stack than where it is called.
#[inline(never)]
fn beneath<const BYTES: usize>(way: &mut Run, n: u64) -> f64 {
    let more = [0u8; BYTES];
    black_box(&more);
    let start = Instant::now();
    assert!(way(n), "an answer changed");
    let taken = start.elapsed().as_nanos() as f64;
    black_box(&more);
    taken
}

/// The least time of one turn for each way, in nanoseconds; None for a way that does not give the work's answer. The
/// ways take turns, so that what disturbs the machine disturbs all of them.
fn least(mut ways: Vec<Option<Run>>, millis: u64, frames: usize) -> Vec<Option<f64>> {
    let mut turns = vec![1u64; ways.len()];
    for (i, way) in ways.iter_mut().enumerate() {
        if way.as_mut().is_some_and(|w| !w(1)) {
            *way = None;
        }
        if let Some(w) = way {
            // as many turns as take about 100 microseconds
            loop {
                let start = Instant::now();
                w(turns[i]);
                if start.elapsed().as_micros() >= 80 {
                    break;
                }
                turns[i] *= 2;
            }
        }
    }
    let mut best = vec![f64::INFINITY; ways.len()];
    let start = Instant::now();
    let mut rounds = 0;
    // each round has the stack at another place: where a frame lies to a cache line makes some percent, and a process
    // begins at one of them by chance
    let places = [beneath::<16>, beneath::<32>, beneath::<48>, beneath::<64>];
    while rounds < 20 || start.elapsed().as_millis() < millis as u128 {
        let taken = places[rounds % places.len()];
        rounds += 1;
        for (i, way) in ways.iter_mut().enumerate() {
            if let Some(w) = way {
                best[i] = best[i].min(taken(w, turns[i]) / turns[i] as f64);
            }
        }
    }
    best.into_iter().zip(&ways).map(|(b, w)| w.as_ref().map(|_| b / frames as f64)).collect()
}

fn ns(t: Option<f64>) -> String {
    match t {
        None => "–".into(),
        Some(t) if t < 100.0 => format!("{t:.1}"),
        Some(t) => {
            let digits = format!("{t:.0}");
            let mut out = String::new();
            for (i, c) in digits.chars().enumerate() {
                if i != 0 && (digits.len() - i) % 3 == 0 {
                    out.push(',');
                }
                out.push(c);
            }
            out
        }
    }
}

/// Ours by theirs: below 1 ours is faster.
fn ratio(ours: Option<f64>, theirs: Option<f64>) -> String {
    match (ours, theirs) {
        (Some(a), Some(b)) if a / b < 0.005 => "<0.01".into(),
        (Some(a), Some(b)) => format!("{:.2}", a / b),
        _ => "–".into(),
    }
}

fn decoders(works: &[Work], millis: u64) {
    let rows: Vec<(&Work, Vec<Option<f64>>)> = works
        .iter()
        .map(|w| {
            let two = |run| if w.resp3_only { None } else { Some(run) };
            let ways = vec![
                two(ours(w, imrazgul::resp2_decode)),
                two(theirs(w, resp2::decode::decode_range)),
                Some(ours(w, imrazgul::resp3_decode)),
                Some(theirs(w, resp3::decode::complete::decode_range)),
                Some(hiredis(w, true)),
                Some(hiredis(w, false)),
                Some(ours(w, imrazgul::resp3_stream)),
            ];
            eprintln!("  {}", w.name);
            (w, least(ways, millis, w.frames))
        })
        .collect();
    println!("## RESP2: nanoseconds a call, and ours by theirs\n");
    println!("| input | bytes | ours | crate | ratio | hiredis | ratio | hiredis without objects | ratio |");
    println!("|---|--:|--:|--:|--:|--:|--:|--:|--:|");
    for (w, t) in rows.iter().filter(|(w, _)| !w.resp3_only) {
        let bytes = w.bytes.len() / w.frames;
        println!(
            "| {} | {bytes} | {} | {} | {} | {} | {} | {} | {} |",
            w.name,
            ns(t[0]),
            ns(t[1]),
            ratio(t[0], t[1]),
            ns(t[4]),
            ratio(t[0], t[4]),
            ns(t[5]),
            ratio(t[0], t[5])
        );
    }
    println!("\n## RESP3: nanoseconds a call, and ours by theirs\n");
    println!("hiredis reads the same bytes; 0.14 has no RESP3.\n");
    println!(
        "| input | bytes | ours | ours, streaming | crate | ratio | hiredis, ratio | hiredis without objects, ratio |"
    );
    println!("|---|--:|--:|--:|--:|--:|--:|--:|");
    for (w, t) in &rows {
        let bytes = w.bytes.len() / w.frames;
        println!(
            "| {} | {bytes} | {} | {} | {} | {} | {} | {} |",
            w.name,
            ns(t[2]),
            ns(t[6]),
            ns(t[3]),
            ratio(t[2], t[3]),
            ratio(t[2], t[4]),
            ratio(t[2], t[5])
        );
    }
}

fn stacks(works: &[Work]) {
    println!("\n## Stack: bytes that a call takes\n");
    println!("Of a painted thread, the closure that calls included.\n");
    println!("| input | ours RESP2 | crate RESP2 | ours RESP3 | crate RESP3 | ours RESP2 encode |");
    println!("|---|--:|--:|--:|--:|--:|");
    for name in ["`+OK`", "100 lanes, array", "32 deep"] {
        let w = works.iter().find(|w| w.name == name).unwrap();
        let bytes: &'static [u8] = w.bytes.clone().leak();
        let decode = |f: Decode| {
            let table: &'static mut [u64] = vec![0; 6 * 4096].leak();
            stack::used(move || {
                black_box(f(bytes, table));
            })
        };
        let encode = encode::stack(bytes);
        println!(
            "| {name} | {} | {} | {} | {} | {encode} |",
            decode(imrazgul::resp2_decode),
            stack::used(move || drop(black_box(resp2::decode::decode_range(bytes)))),
            decode(imrazgul::resp3_decode),
            stack::used(move || drop(black_box(resp3::decode::complete::decode_range(bytes)))),
        );
    }
    println!(
        "\nThe crate has no depth limit; its stack grows with the input's nesting. It also takes heap, ours none."
    );
}

fn main() {
    let keys: Vec<String> = std::env::args().skip(1).collect();
    let key = |k: &str| keys.iter().find_map(|w| w.strip_prefix(k)?.strip_prefix('='));
    let millis = key("millis").map_or(400, |v| v.parse().expect("millis=NUMBER"));
    let works = work::all(key("traffic"));
    println!("# Times\n");
    // what is measured beside ours, and where: bench/run says it
    println!("{}.\n", std::env::var("BENCH_BESIDE").expect("bench/run runs this"));
    println!("Least of many rounds of about 0.1 ms, the ways taking turns on one thread, {millis} ms an input. Our tables have 4,096");
    println!("rows; neither they nor the outputs are cleared between calls. The crate's time has the freeing of its frame in it,");
    println!("hiredis's the copy into its reader's buffer (a pipeline's in pieces of 16 KiB) and, with objects, their freeing; where");
    println!("the input is unfinished also the making and freeing of the reader. – means that it does not give the answer: hiredis");
    println!("0.14 refuses nesting over 7.\n");
    decoders(&works, millis);
    encode::run(&works, millis);
    stacks(&works);
}
