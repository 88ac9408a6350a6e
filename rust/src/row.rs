//! Rows of a table that a decode wrote, seen as frames.
use crate::ROW_WORDS;
use core::fmt;

/// What a row is: word 0. The numbers are the library's.
#[derive(Clone, Copy, Debug, PartialEq, Eq, Hash)]
#[repr(u8)]
pub enum Kind {
    SimpleString = 1,
    SimpleError,
    Number,
    Double,
    Boolean,
    Null,
    BlobString,
    BlobError,
    Verbatim,
    BigNumber,
    ChunkedString,
    EndStream,
    Array,
    Map,
    Set,
    Push,
    Attribute,
    Hello,
    /// A streamed value begins.
    Marker,
    HelloUser,
    HelloPassword,
    HelloName,
}

impl Kind {
    const ALL: [Kind; 22] = [
        Kind::SimpleString,
        Kind::SimpleError,
        Kind::Number,
        Kind::Double,
        Kind::Boolean,
        Kind::Null,
        Kind::BlobString,
        Kind::BlobError,
        Kind::Verbatim,
        Kind::BigNumber,
        Kind::ChunkedString,
        Kind::EndStream,
        Kind::Array,
        Kind::Map,
        Kind::Set,
        Kind::Push,
        Kind::Attribute,
        Kind::Hello,
        Kind::Marker,
        Kind::HelloUser,
        Kind::HelloPassword,
        Kind::HelloName,
    ];

    /// The kind of a code, 1 to 22.
    pub fn from_code(code: u64) -> Option<Kind> {
        let before = usize::try_from(code).ok()?.checked_sub(1)?;
        Kind::ALL.get(before).copied()
    }

    /// Its code.
    pub const fn code(self) -> u64 {
        self as u64
    }
}

/// What a row holds besides its place among the others.
#[derive(Clone, Copy, Debug, PartialEq, Eq)]
pub enum Value<'s> {
    /// The bytes of a text as they stand in the buffer: strings, errors, Double, BigNumber, chunks, Hello's fields.
    Text(&'s [u8]),
    Number(i64),
    Boolean(bool),
    /// A holder's direct children, two for each pair.
    Children(usize),
    /// Hello's version, 2 or 3.
    Version(u64),
    /// What a marker says begins: BlobString, Array, Map or Set.
    Begins(Kind),
    /// Null and EndStream.
    Nothing,
}

/// One row of a table that a decode wrote, with the buffer that its text stands in: a frame, an attribute or a field of
/// Hello.
///
/// ```
/// use imrazgul::{Decoder, Kind, Reader, Value};
/// let mut table = [0; 64 * imrazgul::ROW_WORDS];
/// let mut reader = Reader::new(Decoder::Resp3, b"|1\r\n+ttl\r\n:60\r\n%1\r\n+lane\r\n#t\r\n");
/// let map = reader.next(&mut table)?.unwrap();
/// assert_eq!((map.kind(), map.value()), (Kind::Map, Value::Children(2)));
/// let mut pair = map.children();
/// assert_eq!(pair.next().unwrap().text(), Some(&b"lane"[..]));
/// assert_eq!(pair.next().unwrap().value(), Value::Boolean(true));
/// let ttl = map.attribute().unwrap().children().nth(1).unwrap();
/// assert_eq!(ttl.value(), Value::Number(60));
/// # Ok::<(), imrazgul::Refusal>(())
/// ```
#[derive(Clone, Copy)]
pub struct Row<'s, 't> {
    src: &'s [u8],
    table: &'t [u64],
    index: usize,
}

impl<'s, 't> Row<'s, 't> {
    /// The row of the frame whose rows begin a table that a decode of `src` wrote.
    pub(crate) fn of_frame(src: &'s [u8], table: &'t [u64]) -> Row<'s, 't> {
        let first = Row { src, table, index: 0 };
        if first.kind() == Kind::Attribute {
            Row { index: first.span(), ..first }
        } else {
            first
        }
    }

    /// The six words, as the crate's page says what they hold.
    pub fn words(&self) -> &'t [u64; ROW_WORDS] {
        let from = self.index * ROW_WORDS;
        self.table[from..from + ROW_WORDS].try_into().expect("as many words as a row has")
    }

    pub fn kind(&self) -> Kind {
        Kind::from_code(self.words()[0]).expect("a decode writes no other kind")
    }

    /// This row and all beneath it.
    pub fn span(&self) -> usize {
        self.words()[4] as usize
    }

    /// Its text, where it has one; it lives as long as the buffer.
    pub fn text(&self) -> Option<&'s [u8]> {
        match self.value() {
            Value::Text(text) => Some(text),
            _ => None,
        }
    }

    pub fn value(&self) -> Value<'s> {
        let words = self.words();
        match self.kind() {
            Kind::Number => Value::Number(words[1] as i64),
            Kind::Boolean => Value::Boolean(words[1] == 1),
            Kind::Null | Kind::EndStream => Value::Nothing,
            Kind::Array | Kind::Map | Kind::Set | Kind::Push | Kind::Attribute => Value::Children(words[3] as usize),
            Kind::Hello => Value::Version(words[3]),
            Kind::Marker => Value::Begins(Kind::from_code(words[3]).expect("a marker announces a kind")),
            _ => Value::Text(&self.src[words[1] as usize..words[2] as usize]),
        }
    }

    /// A Verbatim's format, `txt` or `mkd`.
    pub fn format(&self) -> Option<&'static str> {
        match (self.kind(), self.words()[3]) {
            (Kind::Verbatim, 1) => Some("txt"),
            (Kind::Verbatim, _) => Some("mkd"),
            _ => None,
        }
    }

    /// The attribute that stands before this frame; its children are its keys and values in turn.
    pub fn attribute(&self) -> Option<Row<'s, 't>> {
        let index = (self.words()[5] as usize).checked_sub(1)?;
        Some(Row { index, ..*self })
    }

    /// The frames directly beneath it, in the order of the wire: a Map's and an attribute's keys and values in turn, a
    /// Hello's fields. Attributes are passed over: each frame has its own by [`attribute`](Row::attribute).
    pub fn children(&self) -> Children<'s, 't> {
        Children { holder: *self, next: self.index + 1, end: self.index + self.span() }
    }
}

impl fmt::Debug for Row<'_, '_> {
    fn fmt(&self, f: &mut fmt::Formatter) -> fmt::Result {
        f.debug_struct("Row").field("kind", &self.kind()).field("value", &self.value()).finish()
    }
}

/// The frames directly beneath a row, by [`Row::children`].
#[derive(Clone, Debug)]
pub struct Children<'s, 't> {
    holder: Row<'s, 't>,
    next: usize,
    end: usize,
}

impl<'s, 't> Iterator for Children<'s, 't> {
    type Item = Row<'s, 't>;

    fn next(&mut self) -> Option<Row<'s, 't>> {
        if self.next >= self.end {
            return None;
        }
        let mut row = Row { index: self.next, ..self.holder };
        if row.kind() == Kind::Attribute {
            row.index += row.span();
        }
        self.next = row.index + row.span();
        Some(row)
    }
}

impl core::iter::FusedIterator for Children<'_, '_> {}
