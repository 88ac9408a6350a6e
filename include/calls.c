/* Calls each function of imrazgul.h with known inputs, and looks at every field that it gives back and at every word
 * and byte that it was lent, and at those around them: what is exchanged, ignored or of another length in the header or
 * in the library is seen. include/test compiles and runs it.
 *
 * A new call takes a list of cases and a line in main, or a function beside those here where it has another shape. */
#include <stdio.h>

#include "imrazgul.h"

#define COUNT(list) (sizeof(list) / sizeof((list)[0]))

static unsigned looks, wrong;

/* Looks at one number; the first that are wrong are printed. */
static void same(const char *call, size_t number, const char *what, uint64_t got, uint64_t want) {
    looks++;
    if (got != want && wrong++ < 20) {
        printf("%s, case %u: %s is 0x%llx, and should be 0x%llx\n", call, (unsigned)number, what,
               (unsigned long long)got, (unsigned long long)want);
    }
}

/* What lies around the part that a call is lent, to see that it stays as it was. */
enum { AROUND = 16 };

/* ---- decoders ---- */

/* More rows than count. */
enum { LENT_ROWS = IMRAZGUL_MOST_ROWS + 4 };

typedef struct imrazgul_decoded decoder(const uint8_t *src, size_t src_len, uint64_t *table, size_t words);

/* src_len bytes of src decoded into a table of so many words. Where src goes on behind src_len, one byte more would
 * change the answer. */
struct decode_case {
    const char *src;
    size_t src_len;
    size_t words;
    imrazgul_decoded want;
    const uint64_t *rows; /* the words of want.rows rows */
};

/* fields by name, so that their order in the header matters */
#define FRAME(bytes, count) \
    { .answer = IMRAZGUL_FRAME, .refusal = 0, .consumed = bytes, .rows = count }
#define MARKER(bytes, count) \
    { .answer = IMRAZGUL_MARKER, .refusal = 0, .consumed = bytes, .rows = count }
#define UNFINISHED \
    { .answer = IMRAZGUL_UNFINISHED, .refusal = 0, .consumed = 0, .rows = 0 }
#define REFUSED(why) \
    { .answer = IMRAZGUL_REFUSED, .refusal = why, .consumed = 0, .rows = 0 }
#define ROWS(...) \
    (const uint64_t[]) { __VA_ARGS__ }
#define NONE 0

/* A word that no row holds, another at each place. */
static uint64_t mark(size_t i) { return 0xc3a55a3c00000000u + i; }

static void decodes(const char *call, decoder *decode, size_t number, const struct decode_case *c) {
    static uint64_t lent[AROUND + 6 * LENT_ROWS + AROUND];
    for (size_t i = 0; i < COUNT(lent); i++) {
        lent[i] = mark(i);
    }
    imrazgul_decoded got = decode((const uint8_t *)c->src, c->src_len, lent + AROUND, c->words);
    same(call, number, "answer", got.answer, c->want.answer);
    same(call, number, "refusal", got.refusal, c->want.refusal);
    same(call, number, "consumed", got.consumed, c->want.consumed);
    same(call, number, "rows", got.rows, c->want.rows);
    for (size_t i = 0; i < COUNT(lent); i++) {
        int used = i >= AROUND && i - AROUND < 6 * c->want.rows;
        same(call, number, used ? "a word of a row" : "a word that is not used", lent[i],
             used ? c->rows[i - AROUND] : mark(i));
    }
}

static void all_decode(const char *call, decoder *decode, const struct decode_case *cases, size_t count) {
    for (size_t i = 0; i < count; i++) {
        decodes(call, decode, i, &cases[i]);
    }
}

static const struct decode_case resp2[] = {
    /* 0: each kind, and where its words stand */
    {"+OK\r\n", 5, 12, FRAME(5, 1), ROWS(1, 1, 3, 0, 1, 0)},
    {"-ERR no\r\n", 9, 12, FRAME(9, 1), ROWS(2, 1, 7, 0, 1, 0)},
    {":-9223372036854775807\r\n", 23, 12, FRAME(23, 1), ROWS(3, 0x8000000000000001u, 0, 0, 1, 0)},
    {"$-1\r\n", 5, 12, FRAME(5, 1), ROWS(6, 0, 0, 0, 1, 0)},
    {"*-01\r\n", 6, 12, FRAME(6, 1), ROWS(6, 0, 0, 0, 1, 0)},
    {"$3\r\nabcXY", 9, 12, FRAME(9, 1), ROWS(7, 4, 7, 0, 1, 0)},
    {"*0\r\n", 4, 12, FRAME(4, 1), ROWS(13, 0, 0, 0, 1, 0)},
    {"*2\r\n*1\r\n:7\r\n$2\r\nhi\r\n", 20, 27, FRAME(20, 4),
     ROWS(13, 0, 0, 2, 4, 0, 13, 0, 0, 1, 2, 0, 3, 7, 0, 0, 1, 0, 7, 16, 18, 0, 1, 0)},
    /* 8: bytes behind the frame */
    {"+OK\r\n:7\r\n", 9, 12, FRAME(5, 1), ROWS(1, 1, 3, 0, 1, 0)},
    {"*1\r\n:7\r\n:8\r\n", 12, 13, FRAME(8, 2), ROWS(13, 0, 0, 1, 2, 0, 3, 7, 0, 0, 1, 0)},
    /* 10: unfinished, the last with a first row that could have been written */
    {"+OK\r\n", 0, 12, UNFINISHED, NONE},
    {"+OK\r\n", 4, 12, UNFINISHED, NONE},
    {"$3\r\nabcXY", 8, 12, UNFINISHED, NONE},
    {"*2\r\n:7\r\n:8\r\n", 11, 24, UNFINISHED, NONE},
    /* 14: each refusal */
    {"?1\r\n", 4, 12, REFUSED(IMRAZGUL_BAD_TYPE), NONE},
    {"$?\r\n", 4, 12, REFUSED(IMRAZGUL_BAD_LENGTH), NONE},
    {":1.5\r\n", 6, 12, REFUSED(IMRAZGUL_BAD_VALUE), NONE},
    {"*2\r\n:7\r\n:x\r\n", 12, 24, REFUSED(IMRAZGUL_BAD_VALUE), NONE},
    /* 18: tables without a row, exactly full, and too short by a word */
    {"+OK\r\n", 5, 0, REFUSED(IMRAZGUL_TABLE_FULL), NONE},
    {"+OK\r\n", 0, 0, REFUSED(IMRAZGUL_TABLE_FULL), NONE},
    {"+OK\r\n", 5, 5, REFUSED(IMRAZGUL_TABLE_FULL), NONE},
    {"+OK\r\n", 5, 6, FRAME(5, 1), ROWS(1, 1, 3, 0, 1, 0)},
    {"*1\r\n:7\r\n", 8, 11, REFUSED(IMRAZGUL_TABLE_FULL), NONE},
    {"*1\r\n:7\r\n", 8, 12, FRAME(8, 2), ROWS(13, 0, 0, 1, 2, 0, 3, 7, 0, 0, 1, 0)},
};

/* What both RESP3 decoders answer. */
static const struct decode_case resp3[] = {
    /* 0: the kinds that RESP2 hasn't, and where their words stand */
    {",-1.5e3\r\n", 9, 12, FRAME(9, 1), ROWS(4, 1, 7, 0, 1, 0)},
    {"#t\r\n", 4, 12, FRAME(4, 1), ROWS(5, 1, 0, 0, 1, 0)},
    {"#f\r\n", 4, 12, FRAME(4, 1), ROWS(5, 0, 0, 0, 1, 0)},
    {"_\r\n", 3, 12, FRAME(3, 1), ROWS(6, 0, 0, 0, 1, 0)},
    {"!3\r\nERR\r\n", 9, 12, FRAME(9, 1), ROWS(8, 4, 7, 0, 1, 0)},
    {"=6\r\ntxt:hi\r\n", 12, 12, FRAME(12, 1), ROWS(9, 8, 10, 1, 1, 0)},
    {"=4\r\nmkd:\r\n", 10, 12, FRAME(10, 1), ROWS(9, 8, 8, 2, 1, 0)},
    {"(12\r\n", 5, 12, FRAME(5, 1), ROWS(10, 1, 3, 0, 1, 0)},
    {";2\r\nhi\r\n", 8, 12, FRAME(8, 1), ROWS(11, 4, 6, 0, 1, 0)},
    {";0\r\n", 4, 12, FRAME(4, 1), ROWS(12, 0, 0, 0, 1, 0)},
    {".\r\n", 3, 12, FRAME(3, 1), ROWS(12, 0, 0, 0, 1, 0)},
    {"%1\r\n+a\r\n:1\r\n", 12, 18, FRAME(12, 3), ROWS(14, 0, 0, 2, 3, 0, 1, 5, 6, 0, 1, 0, 3, 1, 0, 0, 1, 0)},
    {"~2\r\n:1\r\n:1\r\n", 12, 18, FRAME(12, 3), ROWS(15, 0, 0, 2, 3, 0, 3, 1, 0, 0, 1, 0, 3, 1, 0, 0, 1, 0)},
    {">1\r\n_\r\n", 7, 12, FRAME(7, 2), ROWS(16, 0, 0, 1, 2, 0, 6, 0, 0, 0, 1, 0)},
    {"HELLO 3 AUTH u pw SETNAME n\r\n", 29, 24, FRAME(29, 4),
     ROWS(18, 0, 0, 3, 4, 0, 20, 13, 14, 0, 1, 0, 21, 15, 17, 0, 1, 0, 22, 26, 27, 0, 1, 0)},
    /* 15: an attribute at the top, and one before a value, within the Map's span */
    {"|1\r\n+a\r\n:1\r\n:2\r\n", 16, 24, FRAME(16, 4),
     ROWS(17, 0, 0, 2, 3, 0, 1, 5, 6, 0, 1, 0, 3, 1, 0, 0, 1, 0, 3, 2, 0, 0, 1, 1)},
    {"%1\r\n+a\r\n|0\r\n:2\r\n", 16, 24, FRAME(16, 4),
     ROWS(14, 0, 0, 2, 4, 0, 1, 5, 6, 0, 1, 0, 17, 0, 0, 0, 1, 0, 3, 2, 0, 0, 1, 3)},
    /* 17: unfinished, with counts that no table holds */
    {"%9223372036854775807\r\n", 22, 12, UNFINISHED, NONE},
    {"|18446744073709551615\r\n", 23, 12, UNFINISHED, NONE},
    {">18446744073709551615\r\n", 23, 12, UNFINISHED, NONE},
    {"%1\r\n*0\r\n:1\r\n", 11, 18, UNFINISHED, NONE},
    {"HX\r\n", 3, 12, UNFINISHED, NONE},
    /* 22: each refusal */
    {"?1\r\n", 4, 12, REFUSED(IMRAZGUL_BAD_TYPE), NONE},
    {"!-1\r\n", 5, 12, REFUSED(IMRAZGUL_BAD_LENGTH), NONE},
    {"#x\r\n", 4, 12, REFUSED(IMRAZGUL_BAD_VALUE), NONE},
    {"=3\r\ntxt:", 8, 12, REFUSED(IMRAZGUL_BAD_VERBATIM), NONE},
    {"HELLO 4\r\n", 9, 12, REFUSED(IMRAZGUL_BAD_HELLO), NONE},
    {"*1\r\n$?\r\n", 8, 12, REFUSED(IMRAZGUL_BAD_MARKER), NONE},
    {"|0\r\n|", 5, 12, REFUSED(IMRAZGUL_TWO_ATTRIBUTES), NONE},
    {"%1\r\n*0\r\n:1\r\n", 12, 18, REFUSED(IMRAZGUL_BAD_KEY), NONE},
    {"|0\r\n_\r\n", 7, 12, REFUSED(IMRAZGUL_BAD_ANNOTATED), NONE},
    {"%1\r\n*0\r\n:1\r\n", 8, 12, REFUSED(IMRAZGUL_TABLE_FULL), NONE},
    {"HELLO 3 AUTH u pw\r\n", 19, 12, REFUSED(IMRAZGUL_TABLE_FULL), NONE},
};

/* A marker at the top, alone and with an attribute: the one thing in which the two differ. */
static const struct decode_case resp3_complete[] = {
    {"$?\r\n", 4, 12, REFUSED(IMRAZGUL_BAD_MARKER), NONE},
    {"|0\r\n*?\r\n", 8, 12, REFUSED(IMRAZGUL_BAD_MARKER), NONE},
};

static const struct decode_case resp3_streaming[] = {
    {"$?\r\n", 4, 12, MARKER(4, 1), ROWS(19, 0, 0, 7, 1, 0)},
    {"|0\r\n*?\r\n", 8, 12, MARKER(8, 2), ROWS(17, 0, 0, 0, 1, 0, 19, 0, 0, 13, 1, 1)},
};

/* Puts a text, and a number in four digits, at the end of a source that is being made. */
static size_t put(char *src, size_t at, const char *text) {
    while (*text != 0) {
        src[at++] = *text++;
    }
    return at;
}

static size_t put_number(char *src, size_t at, size_t n) {
    for (size_t unit = 1000; unit > 0; unit /= 10) {
        src[at++] = (char)('0' + n / unit % 10);
    }
    return put(src, at, "\r\n");
}

static void put_row(uint64_t *rows, size_t row, uint64_t kind, uint64_t value, uint64_t children, uint64_t span) {
    const uint64_t words[6] = {kind, value, 0, children, span, 0};
    for (size_t i = 0; i < 6; i++) {
        rows[6 * row + i] = words[i];
    }
}

/* Depth 32 is taken, and depth 33 refused. */
static void depth(const char *call, decoder *decode) {
    static char src[33 * 4];
    static uint64_t rows[6 * 32];
    for (size_t i = 0; i < 32; i++) {
        put_row(rows, i, 13, 0, i < 31, 32 - i);
    }
    for (size_t deep = 32; deep <= 33; deep++) {
        size_t at = 0;
        for (size_t i = 1; i < deep; i++) {
            at = put(src, at, "*1\r\n");
        }
        at = put(src, at, "*0\r\n");
        struct decode_case c = {src, at, 6 * 40, FRAME(at, 32), rows};
        if (deep == 33) {
            c.want = (imrazgul_decoded)REFUSED(IMRAZGUL_TOO_DEEP);
        }
        decodes(call, decode, deep, &c);
    }
}

/* An array of 4,095 numbers takes the 4,096 rows that count. One number more is refused, though the table has more
 * rows. */
static void rows_that_count(const char *call, decoder *decode) {
    static char src[7 * 4097];
    static uint64_t rows[6 * 4096];
    put_row(rows, 0, 13, 0, 4095, 4096);
    for (size_t i = 0; i < 4095; i++) {
        put_row(rows, 1 + i, 3, i, 0, 1);
    }
    for (size_t n = 4095; n <= 4096; n++) {
        size_t at = put_number(src, put(src, 0, "*"), n);
        for (size_t i = 0; i < n; i++) {
            at = put_number(src, put(src, at, ":"), i);
        }
        struct decode_case c = {src, at, 6 * LENT_ROWS, FRAME(at, 4096), rows};
        if (n == 4096) {
            c.want = (imrazgul_decoded)REFUSED(IMRAZGUL_TABLE_FULL);
        }
        decodes(call, decode, n, &c);
    }
}

/* ---- decoders from a place ---- */

typedef struct imrazgul_decoded decoder_at(const uint8_t *src, size_t src_len, size_t at, uint64_t *table,
                                           size_t words);

static int is_text(uint64_t kind) {
    return kind == 1 || kind == 2 || kind == 4 || (7 <= kind && kind <= 11) || (20 <= kind && kind <= 22);
}

/* From a place on, what the call without a place gives of the rest, with the offsets of texts moved. */
static void decodes_at(const char *call, decoder_at *decode_at, decoder *decode, size_t number,
                       const struct decode_case *c, size_t at) {
    static uint64_t lent[AROUND + 6 * LENT_ROWS + AROUND], want[COUNT(lent)];
    const uint8_t *src = (const uint8_t *)c->src;
    size_t from = at < c->src_len ? at : c->src_len;
    for (size_t i = 0; i < AROUND + c->words + AROUND; i++) {
        lent[i] = want[i] = mark(i);
    }
    imrazgul_decoded alone = decode(src + from, c->src_len - from, want + AROUND, c->words);
    imrazgul_decoded got = decode_at(src, c->src_len, at, lent + AROUND, c->words);
    same(call, number, "answer", got.answer, alone.answer);
    same(call, number, "refusal", got.refusal, alone.refusal);
    same(call, number, "consumed", got.consumed, alone.consumed);
    same(call, number, "rows", got.rows, alone.rows);
    for (size_t row = 0; row < alone.rows; row++) {
        uint64_t *words = want + AROUND + 6 * row;
        if (is_text(words[0])) {
            words[1] += from;
            words[2] += from;
        }
    }
    for (size_t i = 0; i < AROUND + c->words + AROUND; i++) {
        same(call, number, "a word from a place", lent[i], want[i]);
    }
}

/* From each place of each case's source, at its end and behind it. */
static void all_places(const char *call, decoder_at *decode_at, decoder *decode, const struct decode_case *cases,
                       size_t count) {
    for (size_t i = 0; i < count; i++) {
        const size_t behind[] = {1, 2, 100, SIZE_MAX / 2, SIZE_MAX - cases[i].src_len};
        for (size_t at = 0; at <= cases[i].src_len; at++) {
            decodes_at(call, decode_at, decode, i, &cases[i], at);
        }
        for (size_t j = 0; j < COUNT(behind); j++) {
            decodes_at(call, decode_at, decode, i, &cases[i], cases[i].src_len + behind[j]);
        }
    }
}

/* Frames one after another; all_places looks at no more of a case than its source and its words. */
#define PIPELINE(src) \
    { src, sizeof(src) - 1, 30, UNFINISHED, NONE }
static const struct decode_case pipelines[] = {
    PIPELINE("+OK\r\n:-7\r\n*2\r\n$2\r\nhi\r\n*1\r\n-no\r\n$-1\r\n$3\r\nend\r\n"),
    PIPELINE("|1\r\n+a\r\n:1\r\n$2\r\nhi\r\n%1\r\n,1.5\r\n=5\r\ntxt:x\r\nHELLO 2 AUTH u p\r\n$?\r\n;1\r\nx\r\n.\r\n"),
    PIPELINE("\r\n\r\n+\r\n?*1\r\n"),
};

static void places(const char *call, decoder_at *decode_at, decoder *decode) {
    all_places(call, decode_at, decode, resp2, COUNT(resp2));
    all_places(call, decode_at, decode, resp3, COUNT(resp3));
    all_places(call, decode_at, decode, resp3_streaming, COUNT(resp3_streaming));
    all_places(call, decode_at, decode, pipelines, COUNT(pipelines));
}

/* ---- the encoder ---- */

/* A table of so many words, its texts in src: the bytes that it is written as, or the refusal. */
struct encode_case {
    const char *src;
    size_t src_len;
    const uint64_t *rows;
    size_t words;
    bool ints_as_bulk;
    uint64_t refusal;
    const char *bytes;
    size_t count;
};

#define WRITTEN(bytes) 0, bytes, sizeof(bytes) - 1
#define NOT(why) why, "", 0

/* The length, and the bytes in an output that is one too short, one that is filled, and a longer one. */
static void encodes(const char *call, size_t number, const struct encode_case *c) {
    static uint8_t lent[AROUND + 7 * LENT_ROWS + AROUND];
    const uint8_t *src = (const uint8_t *)c->src;
    imrazgul_encoded got = imrazgul_resp2_length(src, c->src_len, c->rows, c->words, c->ints_as_bulk);
    same(call, number, "the length's refusal", got.refusal, c->refusal);
    same(call, number, "the length's bytes", got.bytes, c->count);
    const size_t rooms[] = {c->count - (c->count > 0), c->count, c->count + 3};
    for (size_t r = 0; r < COUNT(rooms); r++) {
        for (size_t i = 0; i < COUNT(lent); i++) {
            lent[i] = (uint8_t)(0x80 + i % 101);
        }
        got = imrazgul_resp2_encode(src, c->src_len, c->rows, c->words, c->ints_as_bulk, lent + AROUND, rooms[r]);
        int fits = c->refusal == 0 && rooms[r] >= c->count;
        same(call, number, "refusal", got.refusal, c->refusal != 0 || fits ? c->refusal : IMRAZGUL_OUTPUT_SHORT);
        same(call, number, "bytes", got.bytes, c->count);
        for (size_t i = 0; i < COUNT(lent); i++) {
            int used = fits && i >= AROUND && i - AROUND < c->count;
            same(call, number, used ? "a byte" : "a byte that is not written", lent[i],
                 used ? (uint8_t)c->bytes[i - AROUND] : (uint8_t)(0x80 + i % 101));
        }
    }
}

#define TABLE(...) ROWS(__VA_ARGS__), COUNT(ROWS(__VA_ARGS__))

static const struct encode_case encode_cases[] = {
    /* 0: each kind */
    {"abc", 3, TABLE(1, 1, 3, 0, 1, 0), false, WRITTEN("+bc\r\n")},
    {"abc", 3, TABLE(2, 0, 1, 0, 1, 0), false, WRITTEN("-a\r\n")},
    {"abc", 3, TABLE(7, 0, 3, 0, 1, 0), false, WRITTEN("$3\r\nabc\r\n")},
    {"abc", 3, TABLE(7, 1, 1, 0, 1, 0), false, WRITTEN("$0\r\n\r\n")},
    {"", 0, TABLE(6, 0, 0, 0, 1, 0), false, WRITTEN("$-1\r\n")},
    {"", 0, TABLE(3, UINT64_MAX, 0, 0, 1, 0), false, WRITTEN(":-1\r\n")},
    {"", 0, TABLE(3, 0x8000000000000000u, 0, 0, 1, 0), true, WRITTEN("$20\r\n-9223372036854775808\r\n")},
    {"", 0, TABLE(13, 0, 0, 0, 1, 0), false, WRITTEN("*0\r\n")},
    /* 8: frames in one another, with the flag and without it */
    {"", 0, TABLE(13, 0, 0, 2, 4, 0, 13, 0, 0, 1, 2, 0, 6, 0, 0, 0, 1, 0, 3, 5, 0, 0, 1, 0), false,
     WRITTEN("*2\r\n*1\r\n$-1\r\n:5\r\n")},
    {"", 0, TABLE(13, 0, 0, 2, 4, 0, 13, 0, 0, 1, 2, 0, 6, 0, 0, 0, 1, 0, 3, 5, 0, 0, 1, 0), true,
     WRITTEN("*2\r\n*1\r\n$-1\r\n$1\r\n5\r\n")},
    /* 10: rows behind row 0's span, and words that make no row */
    {"", 0, TABLE(6, 0, 0, 0, 1, 0, 99, 9, 9, 9, 9, 9, 13), false, WRITTEN("$-1\r\n")},
    /* 11: tables that are none */
    {"", 0, TABLE(6, 0, 0, 0, 1), false, NOT(IMRAZGUL_BAD_TABLE)},
    {"abc", 3, TABLE(7, 0, 4, 0, 1, 0), false, NOT(IMRAZGUL_BAD_TABLE)},
    {"abc", 3, TABLE(7, 2, 1, 0, 1, 0), false, NOT(IMRAZGUL_BAD_TABLE)},
    {"abc", 3, TABLE(4, 0, 1, 0, 1, 0), false, NOT(IMRAZGUL_BAD_TABLE)},
    {"", 0, TABLE(6, 0, 0, 0, 1, 1), false, NOT(IMRAZGUL_BAD_TABLE)},
    {"", 0, TABLE(6, 0, 0, 0, 2, 0, 6, 0, 0, 0, 1, 0), false, NOT(IMRAZGUL_BAD_TABLE)},
    {"", 0, TABLE(13, 0, 0, 1, 2, 0), false, NOT(IMRAZGUL_BAD_TABLE)},
    {"", 0, TABLE(13, 0, 0, UINT64_MAX, UINT64_MAX, 0, 6, 0, 0, 0, 1, 0), false, NOT(IMRAZGUL_BAD_TABLE)},
};

/* Depth 32 is written, and depth 33 refused. */
static void encode_depth(const char *call) {
    static char bytes[33 * 4];
    static uint64_t rows[6 * 33];
    for (size_t deep = 32; deep <= 33; deep++) {
        size_t at = 0;
        for (size_t i = 0; i < deep; i++) {
            put_row(rows, i, 13, 0, i + 1 < deep, deep - i);
            at = put(bytes, at, i + 1 < deep ? "*1\r\n" : "*0\r\n");
        }
        struct encode_case c = {"", 0, rows, 6 * deep, false, 0, bytes, at};
        if (deep == 33) {
            c.refusal = IMRAZGUL_BAD_TABLE;
            c.count = 0;
        }
        encodes(call, deep, &c);
    }
}

/* An array of 4,095 numbers is written. One number more is refused, though the table has its row. */
static void encode_rows(const char *call) {
    static char bytes[7 * 4097];
    static uint64_t rows[6 * 4097];
    for (size_t n = 4095; n <= 4096; n++) {
        size_t at = put_number(bytes, put(bytes, 0, "*"), n);
        put_row(rows, 0, 13, 0, n, n + 1);
        for (size_t i = 0; i < n; i++) {
            put_row(rows, 1 + i, 3, 1000 + i, 0, 1);
            at = put_number(bytes, put(bytes, at, ":"), 1000 + i);
        }
        struct encode_case c = {"", 0, rows, COUNT(rows), false, 0, bytes, at};
        if (n == 4096) {
            c.refusal = IMRAZGUL_BAD_TABLE;
            c.count = 0;
        }
        encodes(call, n, &c);
    }
}

/* ---- digits ---- */

/* 20 bytes to lend, and what lies around them. */
static uint8_t digits[AROUND + 20 + AROUND];

static uint8_t *lend_digits(void) {
    for (size_t i = 0; i < COUNT(digits); i++) {
        digits[i] = (uint8_t)(0x80 + i);
    }
    return digits + AROUND;
}

static void look_at_digits(const char *call, size_t number, uint64_t got, uint64_t unused, const char *bytes) {
    same(call, number, "the count of unused bytes", got, unused);
    for (size_t i = 0; i < COUNT(digits); i++) {
        int lent = i >= AROUND && i < AROUND + 20;
        same(call, number, lent ? "a byte" : "a byte around", digits[i], lent ? (uint8_t)bytes[i - AROUND] : 0x80 + i);
    }
}

static void u64_digits(void) {
    static const struct {
        uint64_t n, unused;
        const char *bytes;
    } cases[] = {
        {0, 19, "00000000000000000000"},
        {7, 19, "00000000000000000007"},
        {70, 18, "00000000000000000070"},
        {4294967296u, 10, "00000000004294967296"},
        {9223372036854775808u, 1, "09223372036854775808"},
        {12345678901234567890u, 0, "12345678901234567890"},
        {UINT64_MAX, 0, "18446744073709551615"},
    };
    for (size_t i = 0; i < COUNT(cases); i++) {
        uint64_t got = imrazgul_u64_digits(cases[i].n, lend_digits());
        look_at_digits("imrazgul_u64_digits", i, got, cases[i].unused, cases[i].bytes);
    }
}

static void i64_digits(void) {
    static const struct {
        int64_t n;
        uint64_t unused;
        const char *bytes;
    } cases[] = {
        {0, 19, "00000000000000000000"},          {-1, 18, "000000000000000000-1"},
        {70, 18, "00000000000000000070"},         {-70, 17, "00000000000000000-70"},
        {-4294967296, 9, "000000000-4294967296"}, {1234567890123456789, 1, "01234567890123456789"},
        {INT64_MAX, 1, "09223372036854775807"},   {INT64_MIN, 0, "-9223372036854775808"},
    };
    for (size_t i = 0; i < COUNT(cases); i++) {
        uint64_t got = imrazgul_i64_digits(cases[i].n, lend_digits());
        look_at_digits("imrazgul_i64_digits", i, got, cases[i].unused, cases[i].bytes);
    }
}

/* ---- null pointers with length 0 ---- */

/* A decoder takes them for an empty source and for a table without rows. */
static void null_decodes(const char *call, decoder *decode) {
    const struct decode_case cases[] = {
        {NULL, 0, 12, UNFINISHED, NONE},
        {NULL, 0, 0, REFUSED(IMRAZGUL_TABLE_FULL), NONE},
    };
    all_decode(call, decode, cases, COUNT(cases));
    const char *src[] = {NULL, "+OK\r\n"};
    for (size_t i = 0; i < COUNT(src); i++) {
        imrazgul_decoded got = decode((const uint8_t *)src[i], 5 * i, NULL, 0);
        same(call, i, "the answer without a table", got.answer, IMRAZGUL_REFUSED);
        same(call, i, "the refusal without a table", got.refusal, IMRAZGUL_TABLE_FULL);
    }
}

static void null_decodes_at(const char *call, decoder_at *decode_at) {
    const size_t at[] = {0, 1, SIZE_MAX};
    for (size_t i = 0; i < COUNT(at); i++) {
        uint64_t table[6];
        imrazgul_decoded got = decode_at(NULL, 0, at[i], table, 6);
        same(call, i, "the answer without a source", got.answer, IMRAZGUL_UNFINISHED);
        got = decode_at(NULL, 0, at[i], NULL, 0);
        same(call, i, "the refusal without a source and a table", got.refusal, IMRAZGUL_TABLE_FULL);
    }
}

/* The encoder too, and for an output without room. */
static void null_encodes(const char *call) {
    const struct encode_case cases[] = {
        {NULL, 0, NULL, 0, false, NOT(IMRAZGUL_BAD_TABLE)},
        {NULL, 0, TABLE(7, 0, 0, 0, 1, 0), false, WRITTEN("$0\r\n\r\n")},
        {NULL, 0, TABLE(7, 0, 1, 0, 1, 0), false, NOT(IMRAZGUL_BAD_TABLE)},
    };
    for (size_t i = 0; i < COUNT(cases); i++) {
        const struct encode_case *c = &cases[i];
        encodes(call, i, c);
        imrazgul_encoded got = imrazgul_resp2_encode(NULL, 0, c->rows, c->words, false, NULL, 0);
        same(call, i, "the refusal without an output", got.refusal, c->refusal ? c->refusal : IMRAZGUL_OUTPUT_SHORT);
        same(call, i, "the bytes without an output", got.bytes, c->count);
    }
}

/* ---- the header's own ---- */

/* The numbers that stand in the list's order, from the first on. */
static void in_order(const char *what, const int *list, size_t count, int first) {
    for (size_t i = 0; i < count; i++) {
        same(what, i, "a constant", (uint64_t)list[i], (uint64_t)first + i);
    }
}

static void constants(void) {
    static const int words[] = {IMRAZGUL_WORD_KIND,  IMRAZGUL_WORD_START, IMRAZGUL_WORD_END,
                                IMRAZGUL_WORD_COUNT, IMRAZGUL_WORD_SPAN,  IMRAZGUL_WORD_ATTRIBUTE};
    static const int kinds[] = {
        IMRAZGUL_SIMPLE_STRING,  IMRAZGUL_SIMPLE_ERROR, IMRAZGUL_NUMBER,     IMRAZGUL_DOUBLE,   IMRAZGUL_BOOLEAN,
        IMRAZGUL_NULL,           IMRAZGUL_BLOB_STRING,  IMRAZGUL_BLOB_ERROR, IMRAZGUL_VERBATIM, IMRAZGUL_BIG_NUMBER,
        IMRAZGUL_CHUNKED_STRING, IMRAZGUL_END_STREAM,   IMRAZGUL_ARRAY,      IMRAZGUL_MAP,      IMRAZGUL_SET,
        IMRAZGUL_PUSH,           IMRAZGUL_ATTRIBUTE,    IMRAZGUL_HELLO,      IMRAZGUL_MARKED,   IMRAZGUL_HELLO_USER,
        IMRAZGUL_HELLO_PASSWORD, IMRAZGUL_HELLO_NAME};
    static const int refusals[] = {
        IMRAZGUL_BAD_TYPE,   IMRAZGUL_BAD_LENGTH,     IMRAZGUL_BAD_VALUE, IMRAZGUL_BAD_VERBATIM,  IMRAZGUL_BAD_HELLO,
        IMRAZGUL_BAD_MARKER, IMRAZGUL_TWO_ATTRIBUTES, IMRAZGUL_BAD_KEY,   IMRAZGUL_BAD_ANNOTATED, IMRAZGUL_TOO_DEEP,
        IMRAZGUL_TABLE_FULL, IMRAZGUL_OUTPUT_SHORT,   IMRAZGUL_BAD_TABLE, IMRAZGUL_LONG_SOURCE};
    in_order("enum imrazgul_word", words, COUNT(words), 0);
    in_order("enum imrazgul_kind", kinds, COUNT(kinds), 1);
    in_order("enum imrazgul_refusal", refusals, COUNT(refusals), 1);
    same("the words of a row", 0, "VALUE", IMRAZGUL_WORD_VALUE, 1);
    same("the words of a row", 0, "DETAIL", IMRAZGUL_WORD_DETAIL, 3);
    same("the words of a row", 0, "ROW_WORDS", IMRAZGUL_ROW_WORDS, COUNT(words));
    same("the limits", 0, "MOST_ROWS", IMRAZGUL_MOST_ROWS, 4096);
    same("the limits", 0, "MOST_WORDS", IMRAZGUL_MOST_WORDS, IMRAZGUL_ROW_WORDS * IMRAZGUL_MOST_ROWS);
    same("the limits", 0, "MOST_DEPTH", IMRAZGUL_MOST_DEPTH, 32);
    const char *v = IMRAZGUL_VERSION;
    same("the version", 0, "its number", IMRAZGUL_VERSION_NUMBER,
         (uint64_t)(10000 * (v[0] - '0') + 100 * (v[2] - '0') + (v[4] - '0')));
}

/* Each refusal has words of its own, and all other numbers the same ones. */
static void refusal_words(void) {
    for (uint64_t a = 0; a <= 15; a++) {
        for (uint64_t b = 0; b < a; b++) {
            const char *x = imrazgul_refusal_words(a), *y = imrazgul_refusal_words(b);
            size_t i = 0;
            while (x[i] != 0 && x[i] == y[i]) {
                i++;
            }
            same("imrazgul_refusal_words", a, "another number's words", x[i] == y[i], 0);
        }
    }
    same("imrazgul_refusal_words", 16, "the words of no refusal",
         imrazgul_refusal_words(UINT64_MAX) == imrazgul_refusal_words(15), 1);
}

int main(void) {
    constants();
    refusal_words();
    all_decode("imrazgul_resp2_decode", imrazgul_resp2_decode, resp2, COUNT(resp2));
    depth("imrazgul_resp2_decode by depth", imrazgul_resp2_decode);
    rows_that_count("imrazgul_resp2_decode by rows", imrazgul_resp2_decode);
    null_decodes("imrazgul_resp2_decode of null pointers", imrazgul_resp2_decode);
    all_decode("imrazgul_resp3_decode", imrazgul_resp3_decode, resp3, COUNT(resp3));
    all_decode("imrazgul_resp3_decode at a marker", imrazgul_resp3_decode, resp3_complete, COUNT(resp3_complete));
    depth("imrazgul_resp3_decode by depth", imrazgul_resp3_decode);
    rows_that_count("imrazgul_resp3_decode by rows", imrazgul_resp3_decode);
    null_decodes("imrazgul_resp3_decode of null pointers", imrazgul_resp3_decode);
    all_decode("imrazgul_resp3_stream", imrazgul_resp3_stream, resp3, COUNT(resp3));
    all_decode("imrazgul_resp3_stream at a marker", imrazgul_resp3_stream, resp3_streaming, COUNT(resp3_streaming));
    depth("imrazgul_resp3_stream by depth", imrazgul_resp3_stream);
    rows_that_count("imrazgul_resp3_stream by rows", imrazgul_resp3_stream);
    null_decodes("imrazgul_resp3_stream of null pointers", imrazgul_resp3_stream);
    places("imrazgul_resp2_decode_at", imrazgul_resp2_decode_at, imrazgul_resp2_decode);
    places("imrazgul_resp3_decode_at", imrazgul_resp3_decode_at, imrazgul_resp3_decode);
    places("imrazgul_resp3_stream_at", imrazgul_resp3_stream_at, imrazgul_resp3_stream);
    null_decodes_at("imrazgul_resp2_decode_at of null pointers", imrazgul_resp2_decode_at);
    null_decodes_at("imrazgul_resp3_decode_at of null pointers", imrazgul_resp3_decode_at);
    null_decodes_at("imrazgul_resp3_stream_at of null pointers", imrazgul_resp3_stream_at);
    for (size_t i = 0; i < COUNT(encode_cases); i++) {
        encodes("imrazgul_resp2_encode", i, &encode_cases[i]);
    }
    encode_depth("imrazgul_resp2_encode by depth");
    encode_rows("imrazgul_resp2_encode by rows");
    null_encodes("imrazgul_resp2_encode of null pointers");
    u64_digits();
    i64_digits();
    printf("calls from C: %u looks, %u wrong\n", looks, wrong);
    return wrong != 0;
}
