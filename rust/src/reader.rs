//! The frames of a buffer, one after another.
use crate::{calls, Answer, Decoded, Refusal, Row, ROW_WORDS};

/// One of the library's decoders.
#[derive(Clone, Copy, Debug, PartialEq, Eq, Hash)]
pub enum Decoder {
    Resp2,
    /// RESP3; a streamed value's beginning is refused.
    Resp3,
    /// RESP3; a streamed value's beginning is a frame of the kind [`Marker`](crate::Kind::Marker).
    Resp3Stream,
}

impl Decoder {
    /// Decodes the frame at a place of `src` into `table`.
    pub fn decode_at(self, src: &[u8], at: usize, table: &mut [u64]) -> Decoded {
        match self {
            Decoder::Resp2 => calls::resp2_decode_at(src, at, table),
            Decoder::Resp3 => calls::resp3_decode_at(src, at, table),
            Decoder::Resp3Stream => calls::resp3_stream_at(src, at, table),
        }
    }
}

/// A buffer and a place in it, which goes ahead frame by frame.
///
/// ```
/// use imrazgul::{Decoder, Reader, Value};
/// let mut table = [0; 64 * imrazgul::ROW_WORDS];
/// let mut reader = Reader::new(Decoder::Resp2, b":1\r\n:2\r\n+O");
/// let mut sum = 0;
/// while let Some(frame) = reader.next(&mut table)? {
///     if let Value::Number(n) = frame.value() {
///         sum += n;
///     }
/// }
/// assert_eq!((sum, reader.place(), reader.rest()), (3, 8, &b"+O"[..]));
/// # Ok::<(), imrazgul::Refusal>(())
/// ```
#[derive(Clone, Copy, Debug)]
pub struct Reader<'s> {
    /// What reads the next frame; a connection may change its protocol midway.
    pub decoder: Decoder,
    src: &'s [u8],
    at: usize,
}

impl<'s> Reader<'s> {
    /// At the front of `src`.
    pub fn new(decoder: Decoder, src: &'s [u8]) -> Reader<'s> {
        Reader { decoder, src, at: 0 }
    }

    /// The bytes of all frames so far.
    pub fn place(&self) -> usize {
        self.at
    }

    /// What stands behind them: empty where the buffer ends with a frame.
    pub fn rest(&self) -> &'s [u8] {
        &self.src[self.at..]
    }

    /// The next frame, its rows in `table`; none where its bytes are not all there, or no byte is left. After that and
    /// after a refusal the place is where it was.
    #[allow(clippy::should_implement_trait)]
    pub fn next<'t>(&mut self, table: &'t mut [u64]) -> Result<Option<Row<'s, 't>>, Refusal> {
        match self.decoder.decode_at(self.src, self.at, table).answer() {
            Answer::Unfinished => Ok(None),
            Answer::Refused(refusal) => Err(refusal),
            Answer::Frame { consumed, rows } | Answer::Marker { consumed, rows } => {
                self.at += consumed;
                Ok(Some(Row::of_frame(self.src, &table[..rows * ROW_WORDS])))
            }
        }
    }

    /// All frames from here on, in one table, each with its rows behind those of the one before.
    pub fn frames<'t>(self, table: &'t mut [u64]) -> Frames<'s, 't> {
        Frames { reader: self, table, ended: false }
    }
}

/// The frames of a buffer, by [`Reader::frames`]. A refusal is the last item: [`Refusal::TableFull`] where the table has
/// no rows left for the next frame, with [`reader`](Frames::reader) to go on from there with a fresh one.
///
/// ```
/// use imrazgul::{Decoder, Reader, Row};
/// let mut table = [0; 64 * imrazgul::ROW_WORDS];
/// let mut frames = Reader::new(Decoder::Resp2, b"+a\r\n+b\r\n").frames(&mut table);
/// let both: Vec<Row> = frames.by_ref().collect::<Result<_, _>>()?;
/// assert_eq!((both[0].text(), both[1].text()), (Some(&b"a"[..]), Some(&b"b"[..])));
/// assert!(frames.reader().rest().is_empty());
/// # Ok::<(), imrazgul::Refusal>(())
/// ```
#[derive(Debug)]
pub struct Frames<'s, 't> {
    reader: Reader<'s>,
    table: &'t mut [u64],
    ended: bool,
}

impl<'s> Frames<'s, '_> {
    /// The reader behind the last frame given.
    pub fn reader(&self) -> Reader<'s> {
        self.reader
    }
}

impl<'s, 't> Iterator for Frames<'s, 't> {
    type Item = Result<Row<'s, 't>, Refusal>;

    fn next(&mut self) -> Option<Self::Item> {
        if self.ended {
            return None;
        }
        let Reader { decoder, src, at } = self.reader;
        let (consumed, rows) = match decoder.decode_at(src, at, self.table).answer() {
            Answer::Frame { consumed, rows } | Answer::Marker { consumed, rows } => (consumed, rows),
            Answer::Unfinished => {
                self.ended = true;
                return None;
            }
            Answer::Refused(refusal) => {
                self.ended = true;
                return Some(Err(refusal));
            }
        };
        self.reader.at += consumed;
        let (own, left) = core::mem::take(&mut self.table).split_at_mut(rows * ROW_WORDS);
        self.table = left;
        Some(Ok(Row::of_frame(src, own)))
    }
}

impl core::iter::FusedIterator for Frames<'_, '_> {}
