//! Our library beside the crate redis-protocol: what each answers, and whether they answer alike. `main` runs it by modes;
//! faults/ has a fuzzer's inputs judged by it.

pub mod cells;
#[cfg(feature = "ours")]
pub mod decode;
#[cfg(feature = "ours")]
pub mod digits;
#[cfg(feature = "ours")]
pub mod encode;
pub mod encodes;
pub mod generate;
pub mod list;
pub mod notes;
#[cfg(feature = "ours")]
pub mod ours;
#[cfg(feature = "ours")]
pub mod rig;
pub mod rows;
pub mod samples;
pub mod seeds;
pub mod show;
pub mod tables;
#[cfg(feature = "ours")]
pub mod tally;
pub mod texts;
pub mod theirs;
pub mod wire;

/// The words KEY=VALUE of the command line.
pub struct Keys(pub Vec<String>);

impl Keys {
    pub fn text(&self, key: &str) -> Option<&str> {
        self.0.iter().find_map(|w| w.strip_prefix(key)?.strip_prefix('='))
    }

    pub fn number(&self, key: &str, otherwise: u64) -> u64 {
        self.text(key).map_or(otherwise, |v| v.parse().unwrap_or_else(|_| panic!("{key}={v} is no number")))
    }
}
