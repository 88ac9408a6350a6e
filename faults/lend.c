/* Lends our library memory that ends at a page which traps, and then memory that begins behind one, so that a read or a
 * write of one byte too many ends the program; what may only be read is lent from pages that can't be written. Each case is
 * run at both ends and has to give the same answer, and what the answer doesn't own has to be as it was.
 *
 *   lend [tokens=NUMBER] [frames=NUMBER] [seed=NUMBER] [each=NUMBER] [FILE..]
 *
 * tokens: the longest strings of tokens. frames: how many are made by chance, from seed. each: how many frames of a FILE of
 * recorded ones are taken. faults/README.md names the commands that build and run it, and what watches it besides.
 *
 * Not run, since imrazgul.h forbids it: a null pointer with a length other than 0; a length past what the pointer has; a
 * table that is not aligned to 8 bytes; parts lent to one call that overlap, unless both are only read; a bool that is
 * neither 0 nor 1; fewer than 20 bytes for digits; and a call while another thread writes what it was lent.
 *
 * No header of the C library is included: include/x86-64 says why. */
#include "imrazgul.h"

#ifdef __has_feature
#if __has_feature(address_sanitizer)
#define WATCHED_BY_ASAN
#endif
#endif
#ifdef WATCHED_BY_MEMCHECK
#include <valgrind/memcheck.h>
#endif

int printf(const char *format, ...);
int memcmp(const void *a, const void *b, size_t n);
void *memcpy(void *to, const void *from, size_t n);
void *memset(void *at, int byte, size_t n);
size_t strlen(const char *text);
int strncmp(const char *a, const char *b, size_t n);
void *mmap(void *address, size_t length, int protection, int flags, int fd, long offset);
int memfd_create(const char *name, unsigned flags);
int ftruncate(int fd, long length);
int open(const char *path, int flags, ...);
long read(int fd, void *to, size_t n);
int close(int fd);
void exit(int status);
void (*signal(int number, void (*handler)(int)))(int);

#define COUNT(list) (sizeof(list) / sizeof((list)[0]))

/* ---- what is being run, for a message ---- */

static const char *call;
static const uint8_t *input;
static size_t input_len;
static uint64_t calls, cases, wrong;

static void print_input(void) {
    printf("  %u bytes: \"", (unsigned)input_len);
    for (size_t i = 0; i < input_len && i < 300; i++) {
        if (input[i] >= 0x20 && input[i] < 0x7f && input[i] != '"' && input[i] != '\\') {
            printf("%c", input[i]);
        } else {
            printf("\\x%02x", input[i]);
        }
    }
    printf("\"\n");
}

static void fault(const char *what, uint64_t got, uint64_t want) {
    if (wrong++ < 20) {
        printf("%s: %s: 0x%llx and 0x%llx\n", call, what, (unsigned long long)got, (unsigned long long)want);
        print_input();
    }
}

static void same(const char *what, uint64_t got, uint64_t want) {
    if (got != want) {
        fault(what, got, want);
    }
}

static void fail(const char *why) {
    printf("lend: %s\n", why);
    exit(2);
}

#ifndef WATCHED_BY_ASAN
static void trapped(int number) {
    printf("%s: signal %d: a byte outside of what was lent\n", call, number);
    print_input();
    exit(1);
}
#endif

/* ---- memory to lend ---- */

enum { PAGES = 1 << 16 }; /* a whole number of pages on every machine */
enum { NEAR = 64 };       /* what is watched on the side that has no page which traps */

struct area {
    uint8_t *lent; /* as the library sees it */
    uint8_t *ours; /* the same memory, to be written by us */
    size_t bytes;
    size_t at, n; /* what is lent now */
    bool written; /* whether the library may write it */
};

/* Where a part is lent: at the front of its area, at the back, or, of parts that are empty, nowhere: by a null pointer. */
enum side { FRONT, BACK, NOWHERE };

static struct area make(size_t bytes, bool written) {
    enum { NONE = 0, READ = 1, READ_AND_WRITE = 3, SHARED = 1, PRIVATE = 2, FIXED = 16, ANONYMOUS = 32 };
    struct area a = {.bytes = (bytes + PAGES - 1) / PAGES * PAGES, .written = written};
    int fd = memfd_create("lend", 0);
    uint8_t *all = mmap(NULL, a.bytes + 2 * PAGES, NONE, PRIVATE | ANONYMOUS, -1, 0);
    if (fd < 0 || ftruncate(fd, (long)a.bytes) != 0 || all == (void *)-1) {
        fail("no memory");
    }
    a.lent = mmap(all + PAGES, a.bytes, written ? READ_AND_WRITE : READ, SHARED | FIXED, fd, 0);
    a.ours = written ? a.lent : mmap(NULL, a.bytes, READ_AND_WRITE, SHARED, fd, 0);
    if (a.lent != all + PAGES || a.ours == (void *)-1) {
        fail("no memory");
    }
    close(fd);
    return a;
}

/* Has what lies next to the lent part watched, or no longer. */
static void watch(const struct area *a, bool on) {
    size_t before = a->at < NEAR ? a->at : NEAR, end = a->at + a->n;
    size_t behind = a->bytes - end < NEAR ? a->bytes - end : NEAR;
#if defined WATCHED_BY_ASAN
    void __asan_poison_memory_region(const volatile void *at, size_t n);
    void __asan_unpoison_memory_region(const volatile void *at, size_t n);
    if (on) {
        __asan_poison_memory_region(a->lent + a->at - before, before);
        __asan_poison_memory_region(a->lent + end, behind);
    } else {
        __asan_unpoison_memory_region(a->lent + a->at - before, before + a->n + behind);
    }
#elif defined WATCHED_BY_MEMCHECK
    if (on) {
        (void)VALGRIND_MAKE_MEM_NOACCESS(a->lent + a->at - before, before);
        (void)VALGRIND_MAKE_MEM_NOACCESS(a->lent + end, behind);
        if (a->written) {
            /* no answer may depend on what is only to be written */
            (void)VALGRIND_MAKE_MEM_UNDEFINED(a->lent + a->at, a->n);
        }
    } else {
        (void)VALGRIND_MAKE_MEM_DEFINED(a->lent + a->at - before, before + a->n + behind);
    }
#else
    (void)before;
    (void)behind;
    (void)on;
#endif
}

static uint8_t *lend(struct area *a, enum side side, const void *from, size_t n) {
    if (n > a->bytes) {
        fail("a part is longer than what there is to lend");
    }
    a->at = side == FRONT ? 0 : a->bytes - n;
    a->n = n;
    memcpy(a->ours + a->at, from, n);
    watch(a, true);
    return side == NOWHERE && n == 0 ? NULL : a->lent + a->at;
}

/* Ends a loan; of what was written the first bytes are the answer's, and have to be defined. */
static const uint8_t *back(struct area *a, size_t answers) {
#ifdef WATCHED_BY_MEMCHECK
    if (a->written && VALGRIND_CHECK_MEM_IS_DEFINED(a->lent + a->at, answers) != 0) {
        fault("undefined bytes of an answer", answers, 0);
    }
#endif
    (void)answers;
    watch(a, false);
    return a->ours + a->at;
}

enum { MOST_ROWS = 4100, MOST_BYTES = 1 << 20 };

static struct area source, table, rows_read, output, twenty;

static uint64_t marks[6 * MOST_ROWS];
static uint8_t byte_marks[MOST_BYTES];

/* ---- decoders ---- */

typedef struct imrazgul_decoded decoder(const uint8_t *src, size_t src_len, uint64_t *table, size_t words);
typedef struct imrazgul_decoded decoder_at(const uint8_t *src, size_t src_len, size_t at, uint64_t *table, size_t words);

static const struct {
    const char *name;
    decoder *decode;
    const char *name_at;
    decoder_at *decode_at;
    bool streaming;
} decoders[] = {
    {"imrazgul_resp2_decode", imrazgul_resp2_decode, "imrazgul_resp2_decode_at", imrazgul_resp2_decode_at, false},
    {"imrazgul_resp3_decode", imrazgul_resp3_decode, "imrazgul_resp3_decode_at", imrazgul_resp3_decode_at, false},
    {"imrazgul_resp3_stream", imrazgul_resp3_stream, "imrazgul_resp3_stream_at", imrazgul_resp3_stream_at, true},
};

/* What stands before a place that is decoded from; it is not a frame. */
static const char before[] = "$9\r";
enum { PLACE = sizeof before - 1 };

/* Whether words 1 and 2 of such a row are offsets. */
static bool has_text(uint64_t kind) {
    return kind != IMRAZGUL_NUMBER && kind != IMRAZGUL_BOOLEAN && kind != IMRAZGUL_NULL && kind != IMRAZGUL_END_STREAM &&
           (kind < IMRAZGUL_ARRAY || kind >= IMRAZGUL_HELLO_USER);
}

/* The rows of the last frame. */
static uint64_t rows[6 * MOST_ROWS];

static bool whole(struct imrazgul_decoded d) { return d.answer == IMRAZGUL_FRAME || d.answer == IMRAZGUL_MARKER; }

/* The same bytes behind others: the same answer, with offsets from the front. */
static void decodes_at(size_t which, const uint8_t *src, size_t n, size_t words, struct imrazgul_decoded want) {
    static uint8_t shifted[PLACE + MOST_BYTES];
    memcpy(shifted, before, PLACE);
    memcpy(shifted + PLACE, src, n);
    call = decoders[which].name_at;
    for (enum side side = FRONT; side <= (words == 0 ? NOWHERE : BACK); side++) {
        const uint8_t *s = lend(&source, side, shifted, PLACE + n);
        uint64_t *t = (uint64_t *)(void *)lend(&table, side, marks, 8 * words);
        struct imrazgul_decoded said = decoders[which].decode_at(s, PLACE + n, PLACE, t, words);
        calls++;
        same("answer from a place", said.answer, want.answer);
        same("refusal from a place", said.refusal, want.refusal);
        same("consumed from a place", said.consumed, want.consumed);
        same("rows from a place", said.rows, want.rows);
        size_t used = whole(want) ? 6 * want.rows : 0;
        same("the source, changed", memcmp(back(&source, 0), shifted, PLACE + n) != 0, 0);
        const uint64_t *is = (const uint64_t *)(const void *)back(&table, 8 * used);
        same("words that are not the answer's, changed", memcmp(is + used, marks + used, 8 * (words - used)) != 0, 0);
        for (size_t i = 0; i < used; i++) {
            bool offset = (i % 6 == 1 || i % 6 == 2) && has_text(rows[i - i % 6]);
            same("a word from a place", is[i], rows[i] + (offset ? PLACE : 0));
        }
        /* at the end, and behind it */
        const size_t ends[] = {n, n + 1, SIZE_MAX};
        s = lend(&source, side, src, n);
        for (size_t i = 0; i < COUNT(ends) && n < 8 && words == 12; i++) {
            t = (uint64_t *)(void *)lend(&table, side, marks, 8 * words);
            said = decoders[which].decode_at(s, n, ends[i], t, words);
            calls++;
            same("answer from the end on", said.answer, IMRAZGUL_UNFINISHED);
            same("words, changed", memcmp(back(&table, 0), marks, 8 * words) != 0, 0);
        }
        back(&source, 0);
    }
}

/* One case at both ends: n bytes decoded into a table of so many words. */
static struct imrazgul_decoded decodes(size_t which, const uint8_t *src, size_t n, size_t words) {
    struct imrazgul_decoded first = {.answer = 0};
    call = decoders[which].name;
    input = src;
    input_len = n;
    cases++;
    for (enum side side = FRONT; side <= (n == 0 || words == 0 ? NOWHERE : BACK); side++) {
        const uint8_t *s = lend(&source, side, src, n);
        uint64_t *t = (uint64_t *)(void *)lend(&table, side, marks, 8 * words);
        struct imrazgul_decoded said = decoders[which].decode(s, n, t, words);
        calls++;
        size_t used = whole(said) ? 6 * said.rows : 0;
        if (used > words) {
            fault("more rows than the table has", said.rows, words / 6);
            used = words;
        }
        same("the source, changed", memcmp(back(&source, 0), src, n) != 0, 0);
        const uint64_t *is = (const uint64_t *)(const void *)back(&table, 8 * used);
        same("words that are not the answer's, changed", memcmp(is + used, marks + used, 8 * (words - used)) != 0, 0);
        if (said.answer > IMRAZGUL_REFUSED || (said.answer == IMRAZGUL_MARKER && !decoders[which].streaming)) {
            fault("no answer", said.answer, 0);
        }
        same("a refusal", said.refusal != 0, said.answer == IMRAZGUL_REFUSED);
        same("rows", said.rows != 0, whole(said));
        same("consumed", said.consumed != 0, whole(said));
        if (said.consumed > n) {
            fault("consumed more than there is", said.consumed, n);
        }
        if (side == FRONT) {
            first = said;
            memcpy(rows, is, 8 * used);
        } else {
            same("answer at the other end", said.answer, first.answer);
            same("refusal at the other end", said.refusal, first.refusal);
            same("consumed at the other end", said.consumed, first.consumed);
            same("rows at the other end", said.rows, first.rows);
            same("words of the rows at the other end", memcmp(rows, is, 8 * used) != 0, 0);
        }
    }
    decodes_at(which, src, n, words, first);
    return first;
}

static void encodes_all(const uint8_t *src, size_t n, size_t words);

/* One buffer with every decoder, on a table that has the rows for it, and on tables of other sizes about those. Where it is
 * a frame that the encoder can write, that too. */
static void buffer(const uint8_t *src, size_t n) {
    for (size_t which = 0; which < COUNT(decoders); which++) {
        /* a row takes three bytes or more */
        size_t enough = n / 3 + 2 < MOST_ROWS ? n / 3 + 2 : MOST_ROWS;
        struct imrazgul_decoded said = decodes(which, src, n, 6 * enough);
        size_t needed = whole(said) ? 6 * said.rows : 6;
        if (whole(said)) {
            encodes_all(src, n, needed);
            same("a table exactly full", decodes(which, src, n, needed).answer, said.answer);
            same("a table one word short", decodes(which, src, n, needed - 1).refusal, IMRAZGUL_TABLE_FULL);
            same("a table one row short", decodes(which, src, n, needed - 6).refusal, IMRAZGUL_TABLE_FULL);
        }
        /* every small size */
        for (size_t words = 0; words <= 13; words++) {
            struct imrazgul_decoded small = decodes(which, src, n, words);
            if (words < 6) {
                same("a table without a row", small.refusal, IMRAZGUL_TABLE_FULL);
            }
            if (words >= needed && whole(said)) {
                same("a small table", small.rows, said.rows);
            }
        }
    }
}

/* A buffer with its prefixes: every one where it is short, else those at its ends and some between. */
static void prefixes(const uint8_t *src, size_t n) {
    enum { SHORT = 400, ENDS = 200, BETWEEN = 100 };
    buffer(src, n);
    for (size_t which = 0; which < COUNT(decoders); which++) {
        size_t enough = n / 3 + 2 < MOST_ROWS ? n / 3 + 2 : MOST_ROWS;
        struct imrazgul_decoded said = decodes(which, src, n, 6 * enough);
        size_t words = whole(said) ? 6 * said.rows : 12;
        for (size_t to = 0; to < n; to++) {
            if (n > SHORT && to >= ENDS && to < n - ENDS) {
                to += (n - 2 * ENDS) / BETWEEN;
                to = to < n - ENDS ? to : n - ENDS;
            }
            struct imrazgul_decoded less = decodes(which, src, to, words);
            if (whole(said) && to < said.consumed) {
                same("a frame that is cut", less.answer, IMRAZGUL_UNFINISHED);
            }
        }
    }
}

/* ---- the encoder ---- */

/* One case at both ends: words of table, whose texts stand in src, with outputs exactly long, one short, and empty; where
 * they are few, of every length. */
static void encodes(const uint8_t *src, size_t n, const uint64_t *words, size_t count, bool flag) {
    struct imrazgul_encoded asked = {.refusal = 0};
    static uint8_t written[MOST_BYTES];
    input = src;
    input_len = n;
    cases++;
    for (enum side side = FRONT; side <= (n == 0 || count == 0 ? NOWHERE : BACK); side++) {
        const uint8_t *s = lend(&source, side, src, n);
        const uint64_t *t = (const uint64_t *)(const void *)lend(&rows_read, side, words, 8 * count);
        call = "imrazgul_resp2_length";
        struct imrazgul_encoded length = imrazgul_resp2_length(s, n, t, count, flag);
        calls++;
        if (side != FRONT) {
            same("refusal at the other end", length.refusal, asked.refusal);
            same("bytes at the other end", length.bytes, asked.bytes);
        }
        asked = length;
        if (asked.refusal != 0) {
            same("a refusal", asked.refusal, IMRAZGUL_BAD_TABLE);
            same("bytes of a refusal", asked.bytes, 0);
        }
        if (asked.bytes > MOST_BYTES - 8) {
            fail("an encode that is longer than what there is to lend");
        }
        size_t few = asked.bytes <= 24 ? 0 : asked.bytes - 1;
        call = "imrazgul_resp2_encode";
        for (size_t room = 0; room <= asked.bytes + 1; room = room < few ? few : room + 1) {
            uint8_t *o = lend(&output, room == 0 && side == FRONT ? NOWHERE : side, byte_marks, room);
            struct imrazgul_encoded said = imrazgul_resp2_encode(s, n, t, count, flag, o, room);
            calls++;
            bool fits = asked.refusal == 0 && room >= asked.bytes;
            same("refusal", said.refusal, asked.refusal != 0 || fits ? asked.refusal : IMRAZGUL_OUTPUT_SHORT);
            same("bytes", said.bytes, asked.bytes);
            size_t used = fits ? asked.bytes : 0;
            const uint8_t *is = back(&output, used);
            same("bytes that are not the answer's, changed", memcmp(is + used, byte_marks + used, room - used) != 0, 0);
            if (fits && side == FRONT && room == asked.bytes) {
                memcpy(written, is, used);
            } else if (fits) {
                same("the bytes in another output", memcmp(written, is, used) != 0, 0);
            }
        }
        same("the source, changed", memcmp(back(&source, 0), src, n) != 0, 0);
        same("the table, changed", memcmp(back(&rows_read, 0), words, 8 * count) != 0, 0);
    }
}

/* The rows of the last frame, with both flags; where they are few, with each word changed too, and cut off at each word. */
static void encodes_all(const uint8_t *src, size_t n, size_t words) {
    static uint64_t given[6 * MOST_ROWS], damaged[6 * 6];
    memcpy(given, rows, 8 * words);
    encodes(src, n, given, words, false);
    encodes(src, n, given, words, true);
    if (words > COUNT(damaged) || n > 64) {
        return;
    }
    const uint64_t edges[] = {0,     1,         2,          7,         13,         n,
                              n + 1, words / 6, UINT64_MAX, UINT64_MAX / 6, (uint64_t)1 << 63, given[1] + 1};
    for (size_t i = 0; i < words; i++) {
        for (size_t e = 0; e < COUNT(edges); e++) {
            memcpy(damaged, given, 8 * words);
            damaged[i] = edges[e];
            encodes(src, n, damaged, words, e % 2 == 1);
        }
        encodes(src, n, given, i, false);
    }
}

/* ---- digits ---- */

static void digits(void) {
    static const uint64_t numbers[] = {0, 9, 10, 99, 100, 4294967296u, 9999999999999999999u, (uint64_t)1 << 63, UINT64_MAX};
    static const uint8_t zeros[20];
    input_len = 0;
    for (size_t i = 0; i < COUNT(numbers); i++) {
        for (enum side side = FRONT; side <= BACK; side++) {
            cases++;
            calls += 2;
            call = "imrazgul_u64_digits";
            uint64_t unused = imrazgul_u64_digits(numbers[i], lend(&twenty, side, zeros, 20));
            same("the count of unused bytes", unused < 20, true);
            same("a last digit", back(&twenty, 20)[19], '0' + numbers[i] % 10);
            call = "imrazgul_i64_digits";
            unused = imrazgul_i64_digits((int64_t)numbers[i], lend(&twenty, side, zeros, 20));
            same("the count of unused bytes", unused < 20, true);
            bool below = numbers[i] >> 63;
            same("a last digit", back(&twenty, 20)[19], '0' + (below ? -numbers[i] : numbers[i]) % 10);
        }
    }
}

/* ---- inputs ---- */

static uint8_t made[MOST_BYTES];
static size_t made_len;

static void put_byte(uint8_t b) {
    if (made_len < MOST_BYTES) {
        made[made_len++] = b;
    }
}

static void put(const char *text) {
    while (*text != 0) {
        put_byte((uint8_t)*text++);
    }
}

static void put_number(uint64_t n) {
    if (n >= 10) {
        put_number(n / 10);
    }
    put_byte((uint8_t)('0' + n % 10));
}

static void put_head(char byte, uint64_t n) {
    put_byte((uint8_t)byte);
    put_number(n);
    put("\r\n");
}

static void put_times(size_t n, const char *text) {
    for (size_t i = 0; i < n; i++) {
        put(text);
    }
}

static const char *const tokens[] = {"+", "-", ":", ",", "#", "_", "$", "!", "=", "(", ";", ".",  "*",   "%",
                                     "~", ">", "|", "H", "0", "1", "3", "?", "t", "\r", "\n", "\r\n"};

/* Every string of up to so many tokens. */
static void strings(size_t left) {
    buffer(made, made_len);
    if (left == 0) {
        return;
    }
    for (size_t i = 0; i < COUNT(tokens); i++) {
        size_t n = made_len;
        put(tokens[i]);
        strings(left - 1);
        made_len = n;
    }
}

/* Texts of every length about the blocks that a scan takes at a time, alone and in a frame, with the bytes that end them
 * cut off one by one. */
static void long_texts(void) {
    static const char *const heads[] = {"+", "-", "(", "_", ".", ":", ":-", ",", ",0.", "#", "$", "!", "=", ";", "HELLO 3 SETNAME ", "*"};
    for (size_t h = 0; h < COUNT(heads); h++) {
        for (size_t n = 0; n <= 300; n++) {
            for (int inside = 0; inside < 2; inside++) {
                bool sized = heads[h][1] == 0 && (heads[h][0] == '$' || heads[h][0] == '!' || heads[h][0] == '=' || heads[h][0] == ';');
                made_len = 0;
                put(inside ? "*2\r\n+a\r\n" : "");
                put(heads[h]);
                if (sized) {
                    put_number(heads[h][0] == '=' ? n + 4 : n);
                    put("\r\n");
                    put(heads[h][0] == '=' ? "txt:" : "");
                }
                put_times(n, heads[h][0] == '*' ? "0" : "7");
                put("\r\n");
                for (size_t cut = 0; cut <= 3 && cut <= made_len; cut++) {
                    for (size_t which = 0; which < COUNT(decoders); which++) {
                        decodes(which, made, made_len - cut, 18);
                    }
                }
                /* a CR alone as the last byte, and one before the line's end */
                if (!sized) {
                    made[made_len - 1] = '\r';
                    put("\n");
                    for (size_t which = 0; which < COUNT(decoders); which++) {
                        decodes(which, made, made_len, 18);
                    }
                }
            }
        }
    }
}

/* Depths about 32 by each holder, and rows about 4,096. */
static void limits(void) {
    static const char *const holders[] = {"*1\r\n", ">1\r\n", "%1\r\n:1\r\n", "|1\r\n:1\r\n", "|0\r\n*1\r\n", "~1\r\n", "|1\r\n:1\r\n:2\r\n*1\r\n"};
    for (size_t h = 0; h < COUNT(holders); h++) {
        for (size_t deep = 29; deep <= 34; deep++) {
            made_len = 0;
            put_times(deep, holders[h]);
            put("*0\r\n");
            put_times(holders[h][0] == '|' ? deep : 0, ":9\r\n");
            buffer(made, made_len);
            buffer(made, made_len - 1);
        }
    }
    for (size_t n = 4094; n <= 4097; n++) {
        made_len = 0;
        put_head('*', n);
        put_times(n, ":7\r\n");
        buffer(made, made_len);
        buffer(made, made_len - 1);
    }
}

static uint64_t state;

/* splitmix64 */
static uint64_t chance(uint64_t below) {
    state += 0x9e3779b97f4a7c15u;
    uint64_t z = (state ^ (state >> 30)) * 0xbf58476d1ce4e5b9u;
    z = (z ^ (z >> 27)) * 0x94d049bb133111ebu;
    return (z ^ (z >> 31)) % below;
}

static void put_frame(unsigned depth) {
    static const char types[] = "+-:,#_$!=(;.H**%~>|$$::";
    static const char *const numbers[] = {"0", "-1", "42", "9223372036854775807", "-9223372036854775808", "9223372036854775808", "+5", "007", "x", ""};
    static const char *const doubles[] = {"1.5", "-inf", "nan", "1e400", ".5", "5.", "e5"};
    static const char *const hellos[] = {"ELLO 3", "ELLO 2 AUTH u p", "ELLO 3 SETNAME n", "ELLO 3 AUTH u p SETNAME n", "ELLO 4", "ELLO 3 AUTH u"};
    char type = types[chance(sizeof types - 1)];
    bool holder = type == '*' || type == '%' || type == '~' || type == '>' || type == '|';
    if (holder && depth == 0) {
        type = '$';
        holder = false;
    }
    if (chance(60) == 0) {
        put(chance(2) ? "$-1\r\n" : "*?\r\n");
    } else if (holder) {
        size_t n = chance(5), each = type == '%' || type == '|' ? 2 : 1;
        put_head(type, n);
        for (size_t i = 0; i < n * each; i++) {
            put_frame(depth - 1);
        }
        if (type == '|') {
            put_frame(depth - 1);
        }
    } else if (type == '$' || type == '!' || type == '=' || type == ';') {
        size_t n = chance(20) == 0 ? chance(300) : chance(8);
        put_head(type, type == '=' ? n + 4 : n);
        put(type == '=' ? (chance(2) ? "txt:" : "mkd:") : "");
        for (size_t i = 0; i < n; i++) {
            put_byte((uint8_t)chance(256));
        }
        put("\r\n");
    } else {
        put_byte((uint8_t)type);
        if (type == ':') {
            put(numbers[chance(COUNT(numbers))]);
        } else if (type == ',') {
            put(doubles[chance(COUNT(doubles))]);
        } else if (type == 'H') {
            put(hellos[chance(COUNT(hellos))]);
        } else if (type == '#') {
            put(chance(9) == 0 ? "x" : "t");
        } else {
            put_times(chance(6), "a");
        }
        put("\r\n");
    }
}

/* Frames made by chance, each with its prefixes, and a copy with a byte changed. */
static void frames(uint64_t seed, uint64_t count) {
    static uint8_t copy[MOST_BYTES];
    state = seed;
    for (uint64_t i = 0; i < count; i++) {
        made_len = 0;
        put_frame(1 + (unsigned)(i % 4));
        memcpy(copy, made, made_len);
        prefixes(copy, made_len);
        copy[chance(made_len)] = (uint8_t)chance(256);
        buffer(copy, made_len);
    }
}

/* The frames of a file one after another, as the first decoder that takes each gives them. */
static void recorded(const char *path, uint64_t each) {
    static uint8_t bytes[MOST_BYTES];
    static uint64_t scratch[6 * 4096];
    int fd = open(path, 0);
    size_t n = 0, at = 0;
    for (long got; (got = read(fd, bytes + n, MOST_BYTES - n)) != 0; n += (size_t)got) {
        if (got < 0) {
            printf("lend: %s can't be read\n", path);
            exit(2);
        }
    }
    close(fd);
    for (uint64_t i = 0; at < n && i < each; i++) {
        struct imrazgul_decoded said = imrazgul_resp2_decode(bytes + at, n - at, scratch, COUNT(scratch));
        if (said.answer != IMRAZGUL_FRAME) {
            said = imrazgul_resp3_stream(bytes + at, n - at, scratch, COUNT(scratch));
        }
        /* what is no frame of 4,096 rows is tried as it is, once */
        size_t length = whole(said) ? said.consumed : n - at;
        prefixes(bytes + at, length);
        at += length;
    }
}

/* ---- words ---- */

static bool key(const char *word, const char *name, uint64_t *value) {
    size_t n = strlen(name);
    if (strncmp(word, name, n) != 0 || word[n] != '=') {
        return false;
    }
    *value = 0;
    for (word += n + 1; *word >= '0' && *word <= '9'; word++) {
        *value = 10 * *value + (uint64_t)(*word - '0');
    }
    if (*word != 0) {
        fail("a number that is none");
    }
    return true;
}

static void done(const char *what) {
    static uint64_t before_calls, before_cases;
    printf("%s: %llu cases, %llu calls\n", what, (unsigned long long)(cases - before_cases),
           (unsigned long long)(calls - before_calls));
    before_calls = calls;
    before_cases = cases;
}

int main(int count, char **words) {
    uint64_t most = 3, by_chance = 3000, seed = 1, each = UINT64_MAX;
    int files = 1;
    while (files < count && (key(words[files], "tokens", &most) || key(words[files], "frames", &by_chance) ||
                             key(words[files], "seed", &seed) || key(words[files], "each", &each))) {
        files++;
    }
    for (size_t i = 0; i < COUNT(marks); i++) {
        marks[i] = 0xc3a55a3c00000000u + i;
    }
    for (size_t i = 0; i < COUNT(byte_marks); i++) {
        byte_marks[i] = (uint8_t)(0x80 + i % 101);
    }
    source = make(PLACE + MOST_BYTES, false);
    table = make(8 * 6 * MOST_ROWS, true);
    rows_read = make(8 * 6 * MOST_ROWS, false);
    output = make(MOST_BYTES, true);
    twenty = make(20, true);
#ifndef WATCHED_BY_ASAN
    signal(7, trapped);
    signal(11, trapped);
#endif
    digits();
    done("digits");
    strings(most);
    done("strings of tokens");
    long_texts();
    done("texts of every length up to 300");
    limits();
    done("depths about 32, rows about 4,096");
    frames(seed, by_chance);
    done("frames by chance with prefixes");
    for (int i = files; i < count; i++) {
        recorded(words[i], each);
        const char *name = words[i];
        for (const char *c = name; *c != 0; c++) {
            name = *c == '/' ? c + 1 : name;
        }
        done(name);
    }
    printf("lent: %llu cases, %llu calls, %llu wrong\n", (unsigned long long)cases, (unsigned long long)calls,
           (unsigned long long)wrong);
    return wrong != 0;
}
