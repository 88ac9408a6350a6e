//! Calls each function with known inputs, so that a wrong declaration is caught. P2 to P13 are samples of RULES 6.

use imrazgul::*;

const MINE: u64 = 0x5a5a_5a5a_5a5a_5a5a;

fn frame(consumed: u64, rows: u64) -> Decoded {
    Decoded { answer: 1, refusal: 0, consumed, rows }
}

fn refused(refusal: u64) -> Decoded {
    Decoded { answer: 3, refusal, consumed: 0, rows: 0 }
}

const UNFINISHED: Decoded = Decoded { answer: 0, refusal: 0, consumed: 0, rows: 0 };

type Decoder = fn(&[u8], &mut [u64]) -> Decoded;
type DecoderAt = fn(&[u8], usize, &mut [u64]) -> Decoded;

/// A decoder's answer with the words that it left in a table of two rows and one word more.
fn decode(f: Decoder, src: &[u8]) -> (Decoded, [u64; 13]) {
    let mut table = [MINE; 13];
    let said = f(src, &mut table);
    (said, table)
}

/// The decoders that the library has.
const DECODERS: &[Decoder] = &[resp2_decode, resp3_decode, resp3_stream];

/// A table of 13 words that begins with these.
fn words(first: &[u64]) -> [u64; 13] {
    let mut all = [MINE; 13];
    all[..first.len()].copy_from_slice(first);
    all
}

#[test]
fn p2_a_simple_string() {
    for f in DECODERS {
        assert_eq!(decode(*f, b"+OK\r\n"), (frame(5, 1), words(&[1, 1, 3, 0, 1, 0])));
        assert_eq!(decode(*f, b"+OK\r"), (UNFINISHED, words(&[])));
        assert_eq!(f(b"+OK\r\n", &mut []), refused(11));
    }
}

#[test]
fn p4_minus_one_in_resp2() {
    assert_eq!(decode(resp2_decode, b"$-1\r\n"), (frame(5, 1), words(&[6, 0, 0, 0, 1, 0])));
}

#[test]
fn p4_minus_one_in_resp3() {
    assert_eq!(decode(resp3_decode, b"$-1\r\n"), (refused(6), words(&[])));
    let marker = Decoded { answer: 2, refusal: 0, consumed: 5, rows: 1 };
    assert_eq!(decode(resp3_stream, b"$-1\r\n"), (marker, words(&[19, 0, 0, 7, 1, 0])));
    assert_eq!(marker.answer(), Answer::Marker { consumed: 5, rows: 1 });
}

#[test]
fn p5_a_null_array() {
    assert_eq!(decode(resp2_decode, b"*-01\r\n"), (frame(6, 1), words(&[6, 0, 0, 0, 1, 0])));
}

#[test]
fn p6_a_blob_with_any_trailer() {
    for f in DECODERS {
        assert_eq!(decode(*f, b"$3\r\nabcXY"), (frame(9, 1), words(&[7, 4, 7, 0, 1, 0])));
    }
    assert_eq!(decode(resp2_decode, b"$?\r\n"), (refused(2), words(&[])));
}

const P13: [u64; 18] = [13, 0, 0, 2, 3, 0, 3, 7, 0, 0, 1, 0, 6, 0, 0, 0, 1, 0];

#[test]
fn p13_encode_an_array() {
    let mut out = [b'.'; 20];
    assert_eq!(resp2_length(&[], &P13, false).result(), Ok(13));
    assert_eq!(resp2_length(&[], &P13, true).result(), Ok(16));
    assert_eq!(resp2_encode(&[], &P13, false, &mut out).result(), Ok(13));
    assert_eq!(&out, b"*2\r\n:7\r\n$-1\r\n.......");
    assert_eq!(resp2_encode(&[], &P13, true, &mut out).result(), Ok(16));
    assert_eq!(&out, b"*2\r\n$1\r\n7\r\n$-1\r\n....");
    assert_eq!(resp2_encode(&[], &P13, false, &mut out[..12]).result(), Err((12, 13)));
    assert_eq!(resp2_encode(&[], &P13[..17], false, &mut out).result(), Err((13, 0)));
    assert_eq!(resp2_encode(&[], &P13, false, &mut out).answer(), Ok(13));
    assert_eq!(resp2_encode(&[], &P13, true, &mut out).answer(), Ok(16));
    assert_eq!(resp2_encode(&[], &P13, true, &mut out[..15]), Encoded { refusal: 12, bytes: 16 });
    assert_eq!(resp2_encode(&[], &P13, true, &mut out[..15]).answer(), Err(Refusal::OutputShort));
    assert_eq!(resp2_length(&[], &P13[..17], true).answer(), Err(Refusal::BadTable));
    assert_eq!(&out, b"*2\r\n$1\r\n7\r\n$-1\r\n....");
    let smallest = [3, 1 << 63, 0, 0, 1, 0];
    assert_eq!(resp2_length(&[], &smallest, true).result(), Ok(27));
}

#[test]
fn encode_takes_text_from_its_source() {
    let mut out = [b'.'; 12];
    assert_eq!(resp2_encode(b"abcdef", &[7, 2, 5, 0, 1, 0], false, &mut out).result(), Ok(9));
    assert_eq!(&out, b"$3\r\ncde\r\n...");
    assert_eq!(resp2_length(b"abcd", &[7, 2, 5, 0, 1, 0], false).result(), Err((13, 0)));
}

#[test]
fn digits() {
    assert_eq!(u64_digits(0), (*b"00000000000000000000", 19));
    assert_eq!(u64_digits(u64::MAX), (*b"18446744073709551615", 0));
    assert_eq!(i64_digits(i64::MIN), (*b"-9223372036854775808", 0));
    assert_eq!(i64_digits(-70), (*b"00000000000000000-70", 17));
}

#[test]
fn from_a_place() {
    let at: [DecoderAt; 3] = [resp2_decode_at, resp3_decode_at, resp3_stream_at];
    for f in at {
        let decode = |place| {
            let mut table = [MINE; 13];
            (f(b"+OK\r\n$2\r\nhi\r\n", place, &mut table), table)
        };
        assert_eq!(decode(0), (frame(5, 1), words(&[1, 1, 3, 0, 1, 0])));
        assert_eq!(decode(5), (frame(8, 1), words(&[7, 9, 11, 0, 1, 0])));
        assert_eq!(decode(1), (refused(1), words(&[])));
        for behind in [13, 14, usize::MAX] {
            assert_eq!(decode(behind), (UNFINISHED, words(&[])));
        }
    }
    let minus_one = |f: DecoderAt| f(b"+\r\n$-1\r\n", 3, &mut [0; 6]).answer();
    assert_eq!(minus_one(resp2_decode_at), Answer::Frame { consumed: 5, rows: 1 });
    assert_eq!(minus_one(resp3_decode_at), Answer::Refused(Refusal::BadMarker));
    assert_eq!(minus_one(resp3_stream_at), Answer::Marker { consumed: 5, rows: 1 });
}
