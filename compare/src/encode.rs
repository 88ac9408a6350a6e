//! Holds our RESP2 encoder and its length to the crate's.
//!
//! Which tables are encodable is judged by RULES 5.2 (`tables`); what an encodable one gives is the crate's.

use crate::digits::every_edge;
use crate::generate::Maker;
use crate::show::{commas, show};
use crate::tables::{frame, outside, too_many};
use crate::theirs::Protocol;
use crate::Keys;
use imrazgul::{resp2_decode, resp2_encode, resp2_length};
use redis_protocol::resp2::encode::encode;
use redis_protocol::resp2::types::Resp2Frame;
use std::time::Instant;

#[derive(Default)]
pub struct Count {
    tables: u64,
    encodable: u64,
    outside: u64,
    a3: u64,
    pub differences: u64,
    pub smallest: Option<(Vec<u64>, String)>,
}

impl Count {
    fn differ(&mut self, table: &[u64], why: String) {
        self.differences += 1;
        if self.smallest.as_ref().is_none_or(|(t, _)| table.len() < t.len()) {
            self.smallest = Some((table.to_vec(), why));
        }
    }
}

const MINE: u8 = 0xa7;

/// One table: the length query, then output of the right length, one short, and with room to spare.
pub fn hold(count: &mut Count, src: &[u8], table: &[u64], flag: bool, theirs: &mut Vec<u8>) {
    count.tables += 1;
    let rows = (table.len() / 6).min(4096);
    let said = resp2_length(src, table, flag);
    let Some((f, _)) = frame(src, table, 0, rows, 32) else {
        let mut out = [MINE; 64];
        let wrote = resp2_encode(src, table, flag, &mut out);
        if said.result() != Err((13, 0)) || wrote.result() != Err((13, 0)) || out != [MINE; 64] {
            count.differ(table, format!("not encodable: length says {said:?}, encode {wrote:?}"));
        }
        return;
    };
    if outside(&f) {
        count.outside += 1;
        if said.result().is_err() {
            count.differ(table, format!("encodable, length says {said:?}"));
        }
        return;
    }
    count.encodable += 1;
    let over = too_many(&f, flag);
    count.a3 += u64::from(over > 0);
    let asked = f.encode_len(flag);
    let Ok(needed) = said.result() else {
        return count.differ(table, format!("encodable, length says {said:?}"));
    };
    if needed + over != asked {
        return count.differ(table, format!("length {needed}, the crate's {asked} of which {over} are too many"));
    }
    theirs.clear();
    theirs.resize(asked, 0);
    let Ok(n) = encode(theirs, &f, flag) else {
        return count.differ(table, "the crate does not encode it".into());
    };
    let mut out = vec![MINE; needed + 3];
    let wrote = resp2_encode(src, table, flag, &mut out);
    if wrote.result() != Ok(n) || out[..n] != theirs[..n] || n != needed || out[n..] != [MINE; 3] {
        return count
            .differ(table, format!("{wrote:?}, wrote `{}`, the crate {n}: `{}`", show(&out), show(&theirs[..n])));
    }
    out.fill(MINE);
    let exact = resp2_encode(src, table, flag, &mut out[..needed]);
    if exact.result() != Ok(needed) || out[..n] != theirs[..n] || out[n..] != [MINE; 3] {
        return count.differ(table, format!("output exactly long enough: {exact:?}"));
    }
    out.fill(MINE);
    for short in [0, needed / 2, needed - 1] {
        let said = resp2_encode(src, table, flag, &mut out[..short]);
        if said.result() != Err((12, needed)) || out.iter().any(|b| *b != MINE) {
            return count.differ(table, format!("output of {short} bytes: {said:?}, needed {needed}"));
        }
    }
}

/// Tables from decoded frames, whole and with words changed.
pub fn run(keys: &Keys) -> bool {
    let start = Instant::now();
    let seed = keys.number("seed", 1);
    let frames = keys.number("frames", 100_000);
    let mut maker = Maker::new(seed, Protocol::Resp2);
    let mut count = Count::default();
    let mut buf = Vec::new();
    let mut words = vec![0u64; 6 * 400];
    let mut theirs = Vec::new();
    let numbers = [0, 1, 2, 3, 6, 7, 13, 14, 19, 1 << 32, 1 << 63, u64::MAX, u64::MAX / 6];
    for i in 0..frames {
        buf.clear();
        maker.frame(&mut buf, 1 + (i % 5) as usize);
        let said = resp2_decode(&buf, &mut words);
        if said.answer != 1 {
            continue;
        }
        let mut table = words[..6 * said.rows as usize].to_vec();
        for flag in [false, true] {
            hold(&mut count, &buf, &table, flag, &mut theirs);
        }
        table.extend(&[99; 8][..maker.chance.below(9)]);
        hold(&mut count, &buf, &table, false, &mut theirs);
        for _ in 0..20 {
            let mut bad = table.clone();
            for _ in 0..1 + maker.chance.below(2) {
                let at = maker.chance.below(bad.len());
                bad[at] = match maker.chance.below(4) {
                    0 => numbers[maker.chance.below(numbers.len())],
                    1 => bad[at].wrapping_add(1),
                    2 => bad[at].wrapping_sub(1),
                    _ => maker.chance.below(12) as u64,
                };
            }
            bad.truncate(bad.len() - maker.chance.below(8).min(bad.len()));
            hold(&mut count, &buf, &bad, maker.chance.one_in(2), &mut theirs);
        }
    }
    edges(&mut count, &mut theirs);
    let long = sources(&mut count);
    println!("encode: {} tables in {:.0} s, seed {seed}", commas(count.tables), start.elapsed().as_secs_f64());
    println!(
        "  encodable {}, of them with a length that the crate takes too high (A3) {}",
        commas(count.encodable),
        commas(count.a3)
    );
    println!("  encodable with an error text that is no UTF-8, outside the domain {}", commas(count.outside));
    println!("  sources over 4,294,967,295 bytes: {}", if long { "asked" } else { "not asked, no room for one" });
    println!("  differences {}", commas(count.differences));
    if let Some((table, why)) = &count.smallest {
        println!("  smallest: {table:?}\n    {why}");
    }
    count.differences == 0
}

/// Integers at every edge, nesting about 32, and very many rows.
fn edges(count: &mut Count, theirs: &mut Vec<u8>) {
    for n in every_edge() {
        for flag in [false, true] {
            hold(count, &[], &[3, n, 0, 0, 1, 0], flag, theirs);
        }
    }
    for depth in 1..=40u64 {
        for leaf in [[13, 0, 0, 0, 1, 0], [6, 0, 0, 0, 1, 0], [3, 5, 0, 0, 1, 0]] {
            let mut table: Vec<u64> = (1..depth).flat_map(|d| [13, 0, 0, 1, depth - d + 1, 0]).collect();
            table.extend(leaf);
            hold(count, &[], &table, false, theirs);
        }
    }
    for n in [4094u64, 4095, 4096, 5000] {
        let mut table = vec![13, 0, 0, n, n + 1, 0];
        for i in 0..n {
            table.extend([3, i, 0, 0, 1, 0]);
        }
        // rows past 4,096 do not count: such an array is then not encodable
        hold(count, &[], &table, false, theirs);
    }
    hold(count, &[], &[], false, theirs);
    let src = vec![b'x'; 70_000];
    for n in [0u64, 9, 10, 99, 100, 9999, 10_000, 65_535, 70_000, 70_001] {
        for kind in [1, 2, 7] {
            hold(count, &src, &[kind, 0, n, 0, 1, 0], false, theirs);
        }
    }
}

/// Refusal 14 comes before 13 and 12. The source is as long as that, and no byte of it is ever read or written.
fn sources(count: &mut Count) -> bool {
    const LONGEST: usize = 4_294_967_295;
    let layout = std::alloc::Layout::array::<u8>(LONGEST + 1).unwrap();
    let at = unsafe { std::alloc::alloc_zeroed(layout) };
    if at.is_null() {
        return false;
    }
    let src = unsafe { std::slice::from_raw_parts(at, LONGEST + 1) };
    let last = LONGEST as u64;
    let mut out = [MINE; 8];
    for (n, table, wanted) in [
        (LONGEST, vec![6, 0, 0, 0, 1, 0], Ok(5)),
        (LONGEST, vec![7, last - 1, last, 0, 1, 0], Ok(7)),
        (LONGEST, vec![7, last, last + 1, 0, 1, 0], Err((13, 0))),
        (LONGEST + 1, vec![6, 0, 0, 0, 1, 0], Err((14, 0))),
        (LONGEST + 1, vec![9, 9, 9, 9, 9, 9], Err((14, 0))),
        (LONGEST + 1, vec![], Err((14, 0))),
    ] {
        let length = resp2_length(&src[..n], &table, false);
        let wrote = resp2_encode(&src[..n], &table, false, &mut out);
        if length.result() != wanted || wrote.result() != wanted {
            count.differ(&table, format!("source of {n} bytes: {length:?}, {wrote:?}, wanted {wanted:?}"));
        }
    }
    unsafe { std::alloc::dealloc(at, layout) };
    true
}
