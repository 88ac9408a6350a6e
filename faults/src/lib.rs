//! Judges each input of the fuzzer: our decoders and our encoder are held to the crate as compare/ holds them, and what is
//! encoded and decoded has to come back. The first input that shows a difference ends the process, which the fuzzer notes.

use compare::encode::{hold, Count};
use compare::ours;
use compare::rig::Rig;
use compare::show::show;
use compare::theirs::Protocol;
use imrazgul::{i64_digits, resp2_decode, resp2_encode, resp2_length, u64_digits};
use std::cell::RefCell;

/// Enough for every frame of the seeds that fits into an input.
const ROWS: usize = 128;

struct Judge {
    rigs: [Rig; 3],
    count: Count,
    theirs: Vec<u8>,
}

thread_local! {
    static JUDGE: RefCell<Judge> = RefCell::new(Judge {
        rigs: [Protocol::Resp2, Protocol::Resp3, Protocol::Stream].map(|p| Rig::new(p, ROWS)),
        count: Count::default(),
        theirs: Vec::new(),
    });
}

/// Says what differs, and ends the process.
fn differ(buf: &[u8], why: &str) -> ! {
    eprintln!("difference: `{}`\n  {why}", show(buf));
    std::process::abort();
}

/// Numbers that a word of a damaged table is set to.
const EDGES: [u64; 12] = [0, 1, 2, 3, 6, 7, 13, 1 << 32, 1 << 63, u64::MAX, u64::MAX - 1, u64::MAX / 6];

impl Judge {
    fn input(&mut self, buf: &[u8]) {
        digits(buf);
        for i in 0..self.rigs.len() {
            let rig = &mut self.rigs[i];
            let said = rig.check(buf);
            // in turn, since it is some ten calls
            if buf.len() % 3 == i {
                rig.tables(buf, said);
            }
            if let Some((less, why)) = &rig.tally.smallest {
                differ(less, &format!("{:?}: {why}", rig.protocol));
            }
            if said.answer == 1 || said.answer == 2 {
                let mut table = vec![0; 6 * said.rows as usize];
                ours::decode(rig.protocol, buf, &mut table);
                self.encodes(buf, table, said.consumed as usize);
            }
        }
    }

    fn hold(&mut self, buf: &[u8], table: &[u64], flag: bool) {
        hold(&mut self.count, buf, table, flag, &mut self.theirs);
        if let Some((table, why)) = &self.count.smallest {
            differ(buf, &format!("encode of {table:?}: {why}"));
        }
    }

    /// The table of a decoded frame as it is, and then with words changed as the bytes behind the frame say: two for the
    /// word, one for what is done to it.
    fn encodes(&mut self, buf: &[u8], mut table: Vec<u64>, consumed: usize) {
        self.hold(buf, &table, false);
        self.hold(buf, &table, true);
        round_trip(buf, &table);
        for edit in buf[consumed..].chunks_exact(3).take(8) {
            let at = (usize::from(edit[0]) + 256 * usize::from(edit[1])) % table.len();
            let n = u64::from(edit[2]);
            table[at] = match n {
                0..=63 => n,
                64..=127 => EDGES[n as usize % EDGES.len()],
                128..=159 => table[at].wrapping_add(n - 127),
                160..=191 => table[at].wrapping_sub(n - 159),
                _ => buf.len() as u64 + n - 224,
            };
            self.hold(buf, &table, n % 2 == 1);
        }
    }
}

/// The first eight bytes as a number, printed.
fn digits(buf: &[u8]) {
    let Some(eight) = buf.first_chunk() else { return };
    let n = u64::from_le_bytes(*eight);
    let (plain, unused) = u64_digits(n);
    let (signed, left) = i64_digits(n as i64);
    if plain[unused..] != *n.to_string().as_bytes() || signed[left..] != *(n as i64).to_string().as_bytes() {
        differ(buf, &format!("the digits of {n}: {plain:?}, {signed:?}"));
    }
}

/// What is encoded decodes to the same frame, and encodes to the same bytes again.
fn round_trip(buf: &[u8], table: &[u64]) {
    let Ok(n) = resp2_length(buf, table, false).result() else { return };
    let mut out = vec![0; n];
    let wrote = resp2_encode(buf, table, false, &mut out);
    let mut back = vec![0; table.len()];
    let said = resp2_decode(&out, &mut back);
    if wrote.result() != Ok(n) || (said.answer, said.consumed, said.rows) != (1, n as u64, table.len() as u64 / 6) {
        differ(buf, &format!("encoded with {wrote:?} as `{}`, decoded with {said:?}", show(&out)));
    }
    for (r, b) in table.chunks_exact(6).zip(back.chunks_exact(6)) {
        // texts stand elsewhere
        let same = match r[0] {
            1 | 2 | 7 => {
                buf[r[1] as usize..r[2] as usize] == out[b[1] as usize..b[2] as usize]
                    && (r[0], &r[3..]) == (b[0], &b[3..])
            }
            _ => r == b,
        };
        if !same {
            differ(buf, &format!("a row that comes back as another: {r:?}, {b:?}"));
        }
    }
    let mut again = vec![0; n];
    resp2_encode(&out, &back, false, &mut again);
    if again != out {
        differ(buf, &format!("`{}` is encoded again as `{}`", show(&out), show(&again)));
    }
}

/// # Safety
/// `data` has `size` bytes.
#[no_mangle]
#[allow(non_snake_case)]
pub unsafe extern "C" fn LLVMFuzzerTestOneInput(data: *const u8, size: usize) -> i32 {
    let buf = if size == 0 { &[] } else { unsafe { std::slice::from_raw_parts(data, size) } };
    JUDGE.with(|j| j.borrow_mut().input(buf));
    0
}
