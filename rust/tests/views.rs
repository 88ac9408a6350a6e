//! What the views show of frames of each kind, and how the readers go through a buffer.

use imrazgul::*;

/// Calls `look` with the one frame that `src` is.
fn one(decoder: Decoder, src: &[u8], look: impl FnOnce(Row)) {
    let mut table = [7; 32 * ROW_WORDS];
    let mut reader = Reader::new(decoder, src);
    look(reader.next(&mut table).unwrap().unwrap());
    assert_eq!((reader.place(), reader.rest()), (src.len(), &b""[..]));
    assert!(matches!(reader.next(&mut table), Ok(None)));
}

#[test]
fn each_kind_has_its_value() {
    use Kind::*;
    let text = Value::Text;
    let cases: &[(&[u8], Kind, Value)] = &[
        (b"+OK\r\n", SimpleString, text(b"OK")),
        (b"-no\r\n", SimpleError, text(b"no")),
        (b":-7\r\n", Number, Value::Number(-7)),
        (b",1.5\r\n", Double, text(b"1.5")),
        (b"#f\r\n", Boolean, Value::Boolean(false)),
        (b"#t\r\n", Boolean, Value::Boolean(true)),
        (b"_\r\n", Null, Value::Nothing),
        (b"$0\r\n\r\n", BlobString, text(b"")),
        (b"!2\r\nno\r\n", BlobError, text(b"no")),
        (b"=6\r\nmkd:hi\r\n", Verbatim, text(b"hi")),
        (b"(12\r\n", BigNumber, text(b"12")),
        (b";2\r\nhi\r\n", ChunkedString, text(b"hi")),
        (b".\r\n", EndStream, Value::Nothing),
        (b"*1\r\n_\r\n", Array, Value::Children(1)),
        (b"%1\r\n+a\r\n_\r\n", Map, Value::Children(2)),
        (b"~0\r\n", Set, Value::Children(0)),
        (b">1\r\n_\r\n", Push, Value::Children(1)),
        (b"HELLO 3\r\n", Hello, Value::Version(3)),
        (b"%?\r\n", Marker, Value::Begins(Map)),
        (b"|0\r\n$?\r\n", Marker, Value::Begins(BlobString)),
    ];
    for (src, kind, value) in cases {
        one(Decoder::Resp3Stream, src, |row| assert_eq!((row.kind(), row.value()), (*kind, *value), "{row:?}"));
    }
    one(Decoder::Resp3, b"=6\r\nmkd:hi\r\n", |row| assert_eq!(row.format(), Some("mkd")));
    one(Decoder::Resp3, b"=4\r\ntxt:\r\n", |row| assert_eq!((row.format(), row.text()), (Some("txt"), Some(&b""[..]))));
    one(Decoder::Resp3, b"+OK\r\n", |row| assert_eq!(row.format(), None));
}

#[test]
fn hello_has_its_fields_beneath_it() {
    one(Decoder::Resp3, b"HELLO 2 AUTH u pw SETNAME n\r\n", |row| {
        let fields: Vec<_> = row.children().map(|field| (field.kind(), field.text().unwrap())).collect();
        assert_eq!(fields, [(Kind::HelloUser, &b"u"[..]), (Kind::HelloPassword, b"pw"), (Kind::HelloName, b"n")]);
    });
}

#[test]
fn attributes_are_passed_over_and_found_at_their_frames() {
    let src = b"|1\r\n+a\r\n:1\r\n*3\r\n:5\r\n|1\r\n|0\r\n+b\r\n*1\r\n:2\r\n*1\r\n:6\r\n:7\r\n";
    one(Decoder::Resp3, src, |row| {
        assert_eq!((row.kind(), row.value(), row.children().count()), (Kind::Array, Value::Children(3), 3));
        let attribute = row.attribute().unwrap();
        assert_eq!((attribute.kind(), attribute.children().count()), (Kind::Attribute, 2));
        let mut at_end = row.children();
        let children: Vec<_> = at_end.by_ref().collect();
        assert!(at_end.next().is_none() && format!("{at_end:?}").contains("Array"));
        assert_eq!((children[0].value(), children[2].value()), (Value::Number(5), Value::Number(7)));
        assert!(children[0].attribute().is_none() && children[2].attribute().is_none());
        let (six, own) = (children[1].children().next().unwrap(), children[1].attribute().unwrap());
        assert_eq!(six.value(), Value::Number(6));
        let pair: Vec<_> = own.children().collect();
        assert_eq!((pair.len(), pair[0].text(), pair[1].value()), (2, Some(&b"b"[..]), Value::Children(1)));
        assert_eq!(pair[0].attribute().unwrap().value(), Value::Children(0));
        assert_eq!(pair[1].children().next().unwrap().value(), Value::Number(2));
    });
}

#[test]
fn a_reader_stays_where_it_is_refused_or_wants_bytes() {
    let mut table = [0; 8 * ROW_WORDS];
    let mut reader = Reader::new(Decoder::Resp2, b"+a\r\n?\r\n");
    assert_eq!(reader.next(&mut table).unwrap().unwrap().text(), Some(&b"a"[..]));
    for _ in 0..2 {
        assert_eq!(reader.next(&mut table).unwrap_err(), Refusal::BadType);
        assert_eq!((reader.place(), reader.rest()), (4, &b"?\r\n"[..]));
    }
    let mut reader = Reader::new(Decoder::Resp2, b"*2\r\n:1\r\n");
    assert!(reader.next(&mut table).unwrap().is_none());
    assert_eq!(reader.next(&mut table[..6]).unwrap_err(), Refusal::TableFull);
    assert_eq!(reader.place(), 0);
}

#[test]
fn texts_outlive_the_table() {
    let src = b"+a\r\n+b\r\n".to_vec();
    let mut texts = Vec::new();
    let mut reader = Reader::new(Decoder::Resp3, &src);
    let mut table = [0; 6];
    while let Some(frame) = reader.next(&mut table).unwrap() {
        texts.push(frame.text().unwrap());
    }
    assert_eq!(texts, [b"a", b"b"]);
}

#[test]
fn frames_stand_side_by_side_until_the_table_is_full() {
    let src = b"*1\r\n:1\r\n*1\r\n:2\r\n*1\r\n:3\r\n";
    let mut table = [0; 5 * ROW_WORDS];
    let mut frames = Reader::new(Decoder::Resp2, src).frames(&mut table);
    let (a, b) = (frames.next().unwrap().unwrap(), frames.next().unwrap().unwrap());
    assert_eq!(frames.next().unwrap().unwrap_err(), Refusal::TableFull);
    assert!(frames.next().is_none());
    assert_eq!(a.children().next().unwrap().value(), Value::Number(1));
    assert_eq!(b.children().next().unwrap().value(), Value::Number(2));
    let rest = frames.reader();
    assert_eq!(rest.place(), 16);
    let mut fresh = [0; 5 * ROW_WORDS];
    let mut frames = rest.frames(&mut fresh);
    assert_eq!(frames.next().unwrap().unwrap().children().next().unwrap().value(), Value::Number(3));
    assert!(frames.next().is_none());
    assert_eq!(frames.reader().place(), src.len());
}

#[test]
fn numbers_and_codes_come_back() {
    for n in 1..=14 {
        assert_eq!(Refusal::from_number(n).unwrap().number(), n);
    }
    for n in 1..=22 {
        assert_eq!(Kind::from_code(n).unwrap().code(), n);
    }
    assert_eq!([0, 15, u64::MAX].map(Refusal::from_number), [None; 3]);
    assert_eq!([0, 23, u64::MAX].map(Kind::from_code), [None; 3]);
    let error: &dyn core::error::Error = &Refusal::TooDeep;
    assert_eq!(error.to_string(), "more than 32 frames one inside another");
}
