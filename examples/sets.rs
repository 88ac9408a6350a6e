//! Prints key and value of every SET in a file of RESP2 commands. `examples/run` builds and runs it.
use imrazgul::{Decoder, Kind, Reader, ROW_WORDS};
use std::io::Write;

fn main() -> Result<(), Box<dyn std::error::Error>> {
    let src = std::fs::read(std::env::args().nth(1).ok_or("usage: sets FILE")?)?;
    let mut table = [0; 64 * ROW_WORDS];
    let mut reader = Reader::new(Decoder::Resp2, &src);
    while let Some(frame) = reader.next(&mut table).map_err(|refusal| format!("refused: {refusal}"))? {
        let blobs = frame.children().map_while(|row| row.text().filter(|_| row.kind() == Kind::BlobString));
        if let [b"SET", key, value, ..] = blobs.collect::<Vec<_>>()[..] {
            std::io::stdout().write_all(&[key, b" ", value, b"\n"].concat())?;
        }
    }
    match reader.rest() {
        [] => Ok(()),
        _ => Err(format!("byte {}: unfinished", reader.place()).into()),
    }
}
