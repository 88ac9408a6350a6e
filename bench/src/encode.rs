//! Times our encoder and the crate's, and measures the stack that ours takes.

use crate::stack;
use crate::work::Work;
use crate::{least, ns, ratio, turns, Run};
use redis_protocol::resp2;
use redis_protocol::resp2::types::{OwnedFrame, Resp2Frame};
use std::hint::black_box;

pub fn run(works: &[Work], millis: u64) {
    println!("\n## RESP2 encode: nanoseconds a call, and ours by theirs\n");
    println!("Ours from a decoded table, the crate from its owned frame, both into an output that is long enough and not cleared.\n");
    println!("| frame | bytes | ours | crate | ratio | our length alone | the crate's |");
    println!("|---|--:|--:|--:|--:|--:|--:|");
    for w in works.iter().filter(|w| !w.resp3_only && !w.unfinished && w.frames == 1) {
        let mut table = vec![0u64; 6 * 4096];
        let said = imrazgul::resp2_decode(&w.bytes, &mut table);
        let frame: OwnedFrame = resp2::decode::decode(&w.bytes).unwrap().unwrap().0;
        let table = &table[..6 * said.rows as usize];
        let n = w.bytes.len();
        let mut mine = vec![0u8; n];
        let mut yours = vec![0u8; n + 64];
        let (table, bytes, frame) = (&table, &w.bytes, &frame);
        let ways: Vec<Option<Run>> = vec![
            Some(turns(move || imrazgul::resp2_encode(black_box(bytes), table, false, black_box(&mut mine)).bytes == n as u64)),
            Some(turns(move || resp2::encode::encode(black_box(&mut yours), black_box(frame), false).is_ok_and(|m| m == n))),
            Some(turns(move || imrazgul::resp2_length(black_box(bytes), table, false).bytes == n as u64)),
            Some(turns(move || black_box(frame).encode_len(false) >= n)),
        ];
        let t = least(ways, millis / 2, 1);
        eprintln!("  encode {}", w.name);
        println!(
            "| {} | {n} | {} | {} | {} | {} | {} |",
            w.name,
            ns(t[0]),
            ns(t[1]),
            ratio(t[0], t[1]),
            ns(t[2]),
            ns(t[3])
        );
    }
}

/// The bytes of stack that encoding the frame that bytes hold takes.
pub fn stack(bytes: &'static [u8]) -> usize {
    let table: &'static mut [u64] = vec![0; 6 * 4096].leak();
    let rows = imrazgul::resp2_decode(bytes, table).rows as usize;
    let out: &'static mut [u8] = vec![0; bytes.len()].leak();
    stack::used(move || {
        black_box(imrazgul::resp2_encode(bytes, &table[..6 * rows], false, out));
    })
}
