//! Why a call refuses.
use core::fmt;

/// Why a decode or an encode refuses. The numbers are the library's.
///
/// ```
/// use imrazgul::{resp2_decode, Answer, Refusal};
/// let mut table = [0; 6];
/// let answer = resp2_decode(b":1.5\r\n", &mut table).answer();
/// assert_eq!(answer, Answer::Refused(Refusal::BadValue));
/// assert_eq!(Refusal::BadValue.to_string(), "bad Number, Double or Boolean text");
/// ```
#[derive(Clone, Copy, Debug, PartialEq, Eq, Hash)]
#[repr(u8)]
pub enum Refusal {
    /// A type byte that the protocol doesn't know.
    BadType = 1,
    /// A text that is no length.
    BadLength,
    /// A text that is no Number, Double or Boolean.
    BadValue,
    /// A Verbatim's length below 4, or its format neither `txt` nor `mkd`.
    BadVerbatim,
    /// A line that begins with `H` and is no HELLO.
    BadHello,
    /// A streaming marker as a child, or at the top where the decoder isn't the streaming one.
    BadMarker,
    /// An attribute directly behind an attribute.
    TwoAttributes,
    /// A key of a Map or an attribute, or a member of a Set, of a kind that may not be one.
    BadKey,
    /// An attribute before a frame of a kind that may have none.
    BadAnnotated,
    /// A frame at depth 33 begins.
    TooDeep,
    /// A row is needed and none is left: a larger table may hold the frame.
    TableFull,
    /// Encode: the output is too short, and [`Encoded::bytes`](crate::Encoded::bytes) are needed.
    OutputShort,
    /// Encode: the table's first row doesn't read as a RESP2 frame.
    BadTable,
    /// Encode: the source has more than 4,294,967,295 bytes.
    LongSource,
}

impl Refusal {
    const ALL: [Refusal; 14] = [
        Refusal::BadType,
        Refusal::BadLength,
        Refusal::BadValue,
        Refusal::BadVerbatim,
        Refusal::BadHello,
        Refusal::BadMarker,
        Refusal::TwoAttributes,
        Refusal::BadKey,
        Refusal::BadAnnotated,
        Refusal::TooDeep,
        Refusal::TableFull,
        Refusal::OutputShort,
        Refusal::BadTable,
        Refusal::LongSource,
    ];

    /// The refusal of a number, 1 to 14.
    pub fn from_number(number: u64) -> Option<Refusal> {
        let before = usize::try_from(number).ok()?.checked_sub(1)?;
        Refusal::ALL.get(before).copied()
    }

    /// Its number.
    pub const fn number(self) -> u64 {
        self as u64
    }

    /// Its words, those of the C header.
    pub const fn words(self) -> &'static str {
        match self {
            Refusal::BadType => "type byte unknown to the protocol",
            Refusal::BadLength => "bad length text",
            Refusal::BadValue => "bad Number, Double or Boolean text",
            Refusal::BadVerbatim => "Verbatim shorter than 4 bytes, or its format not txt or mkd",
            Refusal::BadHello => "bad Hello line",
            Refusal::BadMarker => "streaming marker that is not allowed here",
            Refusal::TwoAttributes => "attribute directly after an attribute",
            Refusal::BadKey => "Map or attribute key, or Set member, that is not allowed",
            Refusal::BadAnnotated => "attribute on a frame that cannot carry one",
            Refusal::TooDeep => "more than 32 frames one inside another",
            Refusal::TableFull => "more rows needed than the table has",
            Refusal::OutputShort => "more bytes needed than the output has",
            Refusal::BadTable => "table whose first row does not read as a RESP2 frame",
            Refusal::LongSource => "source of more than 4294967295 bytes",
        }
    }
}

impl fmt::Display for Refusal {
    fn fmt(&self, f: &mut fmt::Formatter) -> fmt::Result {
        f.write_str(self.words())
    }
}

impl core::error::Error for Refusal {}
