//! Our side: calls on tables whose words are all known before.

use crate::theirs::Protocol;
use imrazgul::Decoded;

/// A word that no row holds.
fn mark(i: usize) -> u64 {
    0xc3a5_5a3c_0000_0000 + i as u64
}

/// A table with a copy of what it held, so that every word that a call changed is seen.
pub struct Table {
    pub words: Vec<u64>,
    clean: Vec<u64>,
}

impl Table {
    pub fn new(words: usize) -> Table {
        let clean: Vec<u64> = (0..words).map(mark).collect();
        Table { words: clean.clone(), clean }
    }

    pub fn words(&self) -> usize {
        self.words.len()
    }

    /// Whether every word from the given one on is as it was.
    pub fn untouched_from(&self, word: usize) -> bool {
        self.words[word..] == self.clean[word..]
    }

    pub fn restore(&mut self, words: usize) {
        self.words[..words].copy_from_slice(&self.clean[..words]);
    }

    pub fn restore_all(&mut self) {
        self.words.copy_from_slice(&self.clean);
    }
}

pub fn decode_at(protocol: Protocol, buf: &[u8], at: usize, table: &mut [u64]) -> Decoded {
    match protocol {
        Protocol::Resp2 => imrazgul::resp2_decode_at(buf, at, table),
        Protocol::Resp3 => imrazgul::resp3_decode_at(buf, at, table),
        Protocol::Stream => imrazgul::resp3_stream_at(buf, at, table),
    }
}

pub fn decode(protocol: Protocol, buf: &[u8], table: &mut [u64]) -> Decoded {
    match protocol {
        Protocol::Resp2 => imrazgul::resp2_decode(buf, table),
        Protocol::Resp3 => imrazgul::resp3_decode(buf, table),
        Protocol::Stream => imrazgul::resp3_stream(buf, table),
    }
}
