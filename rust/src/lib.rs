// The crate's root: what it offers, and the answers by cases. Its page is README.md.
#![doc = include_str!("../README.md")]
#![no_std]
#![deny(unsafe_code)]

#[allow(unsafe_code)]
mod calls;
mod reader;
mod refusal;
mod row;

pub use calls::*;
pub use reader::{Decoder, Frames, Reader};
pub use refusal::Refusal;
pub use row::{Children, Kind, Row, Value};

/// The words of a row.
pub const ROW_WORDS: usize = 6;

/// The rows that a table can have; words behind them are not used.
pub const MOST_ROWS: usize = 4096;

/// The frames that can stand in one another, the top one counted.
pub const MOST_DEPTH: usize = 32;

/// A decode's answer by cases.
#[derive(Clone, Copy, Debug, PartialEq, Eq)]
pub enum Answer {
    /// More bytes are needed.
    Unfinished,
    /// The frame's bytes, from where the decode began, and the rows of the table that it takes.
    Frame {
        consumed: usize,
        rows: usize,
    },
    /// The same of a marker: a streamed value begins. Of the streaming decoder alone.
    Marker {
        consumed: usize,
        rows: usize,
    },
    Refused(Refusal),
}

impl Decoded {
    /// The answer by cases.
    ///
    /// # Panics
    ///
    /// Where the numbers are none that a call gives.
    #[inline]
    pub fn answer(&self) -> Answer {
        let (consumed, rows) = (self.consumed as usize, self.rows as usize);
        match self.answer {
            0 => Answer::Unfinished,
            1 => Answer::Frame { consumed, rows },
            2 => Answer::Marker { consumed, rows },
            _ => Answer::Refused(Refusal::from_number(self.refusal).expect("a refusal that a decode gives")),
        }
    }
}

impl Encoded {
    /// The bytes written, or the refusal; with [`Refusal::OutputShort`] [`bytes`](Encoded::bytes) are needed.
    ///
    /// # Panics
    ///
    /// Where the numbers are none that a call gives.
    #[inline]
    pub fn answer(&self) -> Result<usize, Refusal> {
        match self.refusal {
            0 => Ok(self.bytes as usize),
            number => Err(Refusal::from_number(number).expect("a refusal that an encode gives")),
        }
    }
}
