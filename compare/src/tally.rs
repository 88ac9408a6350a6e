//! What a run counted, and the smallest difference that it met.

use crate::show::{commas, show};

#[derive(Default)]
pub struct Tally {
    pub buffers: u64,
    pub unfinished: u64,
    pub frames: u64,
    pub markers: u64,
    pub refused: [u64; 15],
    /// Buffers whose declared count was put down for the crate's sake.
    pub put_down: u64,
    /// Buffers with 0 and -0 among keys, which the crate leaves to chance (docs/DIFFERENCES.md, A4).
    pub chance: u64,
    /// Calls on tables exactly full, short or with words to spare.
    pub tables: u64,
    /// Calls from a place.
    pub places: u64,
    pub differences: u64,
    pub smallest: Option<(Vec<u8>, String)>,
}

impl Tally {
    pub fn differ(&mut self, buf: &[u8], why: String) {
        self.differences += 1;
        if self.smallest.as_ref().is_none_or(|(b, _)| (buf.len(), buf) < (b.len(), b)) {
            self.smallest = Some((buf.to_vec(), why));
        }
    }

    /// Prints the counts; true where nothing differed.
    pub fn print(&self, name: &str, seconds: f64) -> bool {
        println!("{name}: {} buffers in {seconds:.0} s", commas(self.buffers));
        print!("  unfinished {}, frames {}", commas(self.unfinished), commas(self.frames));
        println!(", markers {}", commas(self.markers));
        let refused: Vec<String> =
            (1..=9).filter(|k| self.refused[*k] > 0).map(|k| format!("{k}: {}", commas(self.refused[k]))).collect();
        println!("  refused {}", refused.join(", "));
        println!("  outside the domain: 10: {}, 11: {}", commas(self.refused[10]), commas(self.refused[11]));
        println!("  calls on full, short and odd tables {}, from a place {}", commas(self.tables), commas(self.places));
        println!(
            "  counts put down for the crate (A2) {}, left to chance (A4) {}",
            commas(self.put_down),
            commas(self.chance)
        );
        println!("  differences {}", commas(self.differences));
        if let Some((buf, why)) = &self.smallest {
            println!("  smallest, {} bytes: `{}`\n    {why}", buf.len(), show(buf));
        }
        self.differences == 0
    }
}
