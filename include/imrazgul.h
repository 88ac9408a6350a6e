/* The calls of the RESP2 and RESP3 decoders, the RESP2 encoder and the digits that libimrazgul.a has, which ./install
 * builds.
 *
 * What is asked of the caller. A slice is passed as a pointer and a length. A pointer with length 0 is not read
 * through and may be null; any other points to as many elements as the length says. A table is aligned to 8 bytes.
 * What one call is lent must not overlap, unless both parts are only read. Nothing else is asked: every input has an
 * answer.
 *
 * What a call takes. It keeps no state, allocates nothing and calls nothing, so any number of threads may be in calls
 * at once, if no other thread meanwhile uses what a call may write, and none writes what it reads. What is said to be
 * as it was was not written: a decode writes rows when it knows that the frame is there, an encode bytes when it knows
 * that they fit. IMRAZGUL_STACK bytes of stack are enough for each call; a RESP2 decode, an encode and the length take
 * at most half of that.
 *
 * The table is lent as 64-bit words, IMRAZGUL_ROW_WORDS to a row, at most IMRAZGUL_MOST_ROWS rows; words that make no
 * whole row, or stand behind the last of those rows, are not used. Rows stand in wire order: a parent before its
 * children, an attribute before its frame. enum imrazgul_word says what the words hold.
 *
 * What is not checked. The two bytes behind a blob, a chunk and a Verbatim may be any (RESP has CR LF there), the text
 * of Null and EndStream is passed over, and no text is held to a character set: docs/DIFFERENCES.md lists where RESP
 * asks for more.
 */
#ifndef IMRAZGUL_H
#define IMRAZGUL_H

#include <stdbool.h>
#include <stddef.h>
#include <stdint.h>

#ifdef __cplusplus
extern "C" {
#endif

#define IMRAZGUL_VERSION "0.1.0"
#define IMRAZGUL_VERSION_NUMBER 100 /* 10000 * major + 100 * minor + patch */

#define IMRAZGUL_ROW_WORDS 6
#define IMRAZGUL_MOST_ROWS 4096
#define IMRAZGUL_MOST_WORDS 24576 /* of the largest table that is used */
#define IMRAZGUL_MOST_DEPTH 32    /* frames in one another, the top one counted */
#define IMRAZGUL_STACK 24576      /* bytes; bench/stack holds it to a bound from the object code */

/* The words of a row, by what they hold. */
enum imrazgul_word {
    IMRAZGUL_WORD_KIND = 0,     /* one of enum imrazgul_kind */
    IMRAZGUL_WORD_START = 1,    /* text: the offset of its first byte in src; else 0, or the value: */
    IMRAZGUL_WORD_VALUE = 1,    /* Number: its value modulo 2^64. Boolean: 1 or 0 */
    IMRAZGUL_WORD_END = 2,      /* text: the offset behind its last byte; else 0 */
    IMRAZGUL_WORD_COUNT = 3,    /* holder: its direct children, two for each pair; else 0, or the detail: */
    IMRAZGUL_WORD_DETAIL = 3,   /* Verbatim: 1 for txt, 2 for mkd. Hello: its version. Marker: the kind announced */
    IMRAZGUL_WORD_SPAN = 4,     /* this row and all rows beneath it */
    IMRAZGUL_WORD_ATTRIBUTE = 5 /* 1 + the index of the row of its attribute; 0 where it has none */
};

/* What a row is. A holder is one that has children: 13 to 17. */
enum imrazgul_kind {
    IMRAZGUL_SIMPLE_STRING = 1,
    IMRAZGUL_SIMPLE_ERROR = 2,
    IMRAZGUL_NUMBER = 3,
    IMRAZGUL_DOUBLE = 4, /* a text that reads as a double; its value is not worked out */
    IMRAZGUL_BOOLEAN = 5,
    IMRAZGUL_NULL = 6,
    IMRAZGUL_BLOB_STRING = 7,
    IMRAZGUL_BLOB_ERROR = 8,
    IMRAZGUL_VERBATIM = 9,
    IMRAZGUL_BIG_NUMBER = 10,
    IMRAZGUL_CHUNKED_STRING = 11,
    IMRAZGUL_END_STREAM = 12,
    IMRAZGUL_ARRAY = 13,
    IMRAZGUL_MAP = 14,
    IMRAZGUL_SET = 15,
    IMRAZGUL_PUSH = 16,
    IMRAZGUL_ATTRIBUTE = 17,
    IMRAZGUL_HELLO = 18,
    IMRAZGUL_MARKED = 19, /* a row of a marker: a streamed value begins */
    IMRAZGUL_HELLO_USER = 20,
    IMRAZGUL_HELLO_PASSWORD = 21,
    IMRAZGUL_HELLO_NAME = 22
};

enum imrazgul_answer {
    IMRAZGUL_UNFINISHED = 0, /* more bytes are needed; the table is as it was */
    IMRAZGUL_FRAME = 1,
    IMRAZGUL_MARKER = 2, /* a streamed value begins; from imrazgul_resp3_stream and imrazgul_resp3_stream_at alone */
    IMRAZGUL_REFUSED = 3 /* refusal says why; the table is as it was */
};

enum imrazgul_refusal {
    IMRAZGUL_BAD_TYPE = 1,
    IMRAZGUL_BAD_LENGTH = 2,
    IMRAZGUL_BAD_VALUE = 3,
    IMRAZGUL_BAD_VERBATIM = 4,
    IMRAZGUL_BAD_HELLO = 5,
    IMRAZGUL_BAD_MARKER = 6,
    IMRAZGUL_TWO_ATTRIBUTES = 7,
    IMRAZGUL_BAD_KEY = 8,
    IMRAZGUL_BAD_ANNOTATED = 9,
    IMRAZGUL_TOO_DEEP = 10,
    IMRAZGUL_TABLE_FULL = 11,
    IMRAZGUL_OUTPUT_SHORT = 12, /* 12 to 14: of an encode alone */
    IMRAZGUL_BAD_TABLE = 13,
    IMRAZGUL_LONG_SOURCE = 14
};

/* A refusal in words; 0 and numbers that no call gives have words too. */
static inline const char *imrazgul_refusal_words(uint64_t refusal) {
    switch (refusal) {
    case 0: return "not refused";
    case IMRAZGUL_BAD_TYPE: return "type byte unknown to the protocol";
    case IMRAZGUL_BAD_LENGTH: return "bad length text";
    case IMRAZGUL_BAD_VALUE: return "bad Number, Double or Boolean text";
    case IMRAZGUL_BAD_VERBATIM: return "Verbatim shorter than 4 bytes, or its format not txt or mkd";
    case IMRAZGUL_BAD_HELLO: return "bad Hello line";
    case IMRAZGUL_BAD_MARKER: return "streaming marker that is not allowed here";
    case IMRAZGUL_TWO_ATTRIBUTES: return "attribute directly after an attribute";
    case IMRAZGUL_BAD_KEY: return "Map or attribute key, or Set member, that is not allowed";
    case IMRAZGUL_BAD_ANNOTATED: return "attribute on a frame that cannot carry one";
    case IMRAZGUL_TOO_DEEP: return "more than 32 frames one inside another";
    case IMRAZGUL_TABLE_FULL: return "more rows needed than the table has";
    case IMRAZGUL_OUTPUT_SHORT: return "more bytes needed than the output has";
    case IMRAZGUL_BAD_TABLE: return "table whose first row does not read as a RESP2 frame";
    case IMRAZGUL_LONG_SOURCE: return "source of more than 4294967295 bytes";
    default: return "no refusal has this number";
    }
}

/* ---- decode ---- */

/* refusal is 0 unless answer is IMRAZGUL_REFUSED; consumed and rows are 0 unless it is IMRAZGUL_FRAME or
 * IMRAZGUL_MARKER. */
typedef struct imrazgul_decoded {
    uint64_t answer;
    uint64_t refusal;
    uint64_t consumed; /* bytes of src, from where the decode began */
    uint64_t rows;     /* rows of table used; the rest of table is as it was */
} imrazgul_decoded;

/* Decodes the RESP2 frame that src begins with, into a table of so many words. */
struct imrazgul_decoded imrazgul_resp2_decode(const uint8_t *src, size_t src_len, uint64_t *table, size_t words);

/* Decodes the RESP3 frame that src begins with; a marker at the top is refused. */
struct imrazgul_decoded imrazgul_resp3_decode(const uint8_t *src, size_t src_len, uint64_t *table, size_t words);

/* The same, and a marker at the top is answered with IMRAZGUL_MARKER. */
struct imrazgul_decoded imrazgul_resp3_stream(const uint8_t *src, size_t src_len, uint64_t *table, size_t words);

/* The three from a place in src on, so that the frames of a pipeline are decoded one after another: consumed is
 * counted from the place, offsets in the rows from the front of src. Bytes before the place are not looked at; a place
 * behind the end is like the end. */
struct imrazgul_decoded imrazgul_resp2_decode_at(const uint8_t *src, size_t src_len, size_t at, uint64_t *table,
                                                 size_t words);
struct imrazgul_decoded imrazgul_resp3_decode_at(const uint8_t *src, size_t src_len, size_t at, uint64_t *table,
                                                 size_t words);
struct imrazgul_decoded imrazgul_resp3_stream_at(const uint8_t *src, size_t src_len, size_t at, uint64_t *table,
                                                 size_t words);

/* ---- encode ---- */

/* bytes: how many were written, or with IMRAZGUL_OUTPUT_SHORT are needed; with another refusal 0. */
typedef struct imrazgul_encoded {
    uint64_t refusal; /* 0 where there is none; else out is as it was */
    uint64_t bytes;
} imrazgul_encoded;

/* Writes the RESP2 frame of row 0 of table, whose texts stand in src, to the front of out; the rest of out is as it
 * was. src and table are only read. With ints_as_bulk, integers are written as bulk strings. */
struct imrazgul_encoded imrazgul_resp2_encode(const uint8_t *src, size_t src_len, const uint64_t *table, size_t words,
                                              bool ints_as_bulk, uint8_t *out, size_t out_len);

/* How many bytes it writes. */
struct imrazgul_encoded imrazgul_resp2_length(const uint8_t *src, size_t src_len, const uint64_t *table, size_t words,
                                              bool ints_as_bulk);

/* ---- digits ---- */

/* The digits of n in 20 bytes, filled with '0' on the left; gives the count of unused bytes at the front. */
uint64_t imrazgul_u64_digits(uint64_t n, uint8_t bytes[20]);

/* The same, with a sign just before the first digit of a negative number. */
uint64_t imrazgul_i64_digits(int64_t n, uint8_t bytes[20]);

#ifdef __cplusplus
}
#endif

#endif
