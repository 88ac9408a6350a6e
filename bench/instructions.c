/* Counts the instructions that a call of our decoders or the encoder takes, from its first to its return: with the trap
 * flag set the processor traps after each, and the traps are counted. The counts are the same at each run, on a processor and under
 * an emulator. bench/instructions compiles and runs it.
 *
 * The inputs are those that bench/src/work.rs makes. Each word of the command line is a file of more, decoded one frame
 * after another.
 *
 * No header of the C library is included: include/x86-64 says why. */
#include "imrazgul.h"

int printf(const char *format, ...);
int sprintf(char *to, const char *format, ...);
int open(const char *name, int flags, ...);
long read(int fd, void *to, size_t bytes);
int close(int fd);
void (*signal(int number, void (*handler)(int)))(int);

typedef struct imrazgul_decoded decoder(const uint8_t *src, size_t src_len, uint64_t *table, size_t words);

static const struct {
    const char *name;
    decoder *decode;
} decoders[] = {
    {"imrazgul_resp2_decode", imrazgul_resp2_decode},
    {"imrazgul_resp3_decode", imrazgul_resp3_decode},
    {"imrazgul_resp3_stream", imrazgul_resp3_stream},
    {"imrazgul_resp2_encode", NULL},
};

/* ---- counting ---- */

enum { SIGTRAP = 5, ROWS = 4096 };

static uint64_t table[6 * ROWS];
static volatile unsigned long traps;

static void trap(int number) {
    (void)number;
    traps++;
}

/* A decoder of two instructions: what counting itself adds is counted by it. */
__asm__(".pushsection .text\ntwo_instructions: movq %rdi, %rax\nret\n.popsection\n");
decoder two_instructions;

static struct imrazgul_decoded trap_each(decoder *decode, const uint8_t *src, size_t bytes) {
    traps = 0;
    __asm__ volatile("pushfq; orq $0x100, (%%rsp); popfq" ::: "memory", "cc");
    struct imrazgul_decoded said = decode(src, bytes, table, 6 * ROWS);
    __asm__ volatile("pushfq; andq $~0x100, (%%rsp); popfq" ::: "memory", "cc");
    return said;
}

/* By a pointer, so that the compiler makes no copy of it for one decoder. */
static struct imrazgul_decoded (*volatile trapped)(decoder *, const uint8_t *, size_t) = trap_each;

typedef struct imrazgul_encoded encoder(const uint8_t *src, size_t src_len, const uint64_t *table, size_t words,
                                        bool ints_as_bulk, uint8_t *out, size_t out_len);

static uint8_t written[4 << 20];

/* The same for an encoder. */
__asm__(".pushsection .text\ntwo_instructions_more: movq %rdi, %rax\nret\n.popsection\n");
encoder two_instructions_more;

static struct imrazgul_encoded trap_encode(encoder *encode, const uint8_t *src, size_t bytes) {
    traps = 0;
    __asm__ volatile("pushfq; orq $0x100, (%%rsp); popfq" ::: "memory", "cc");
    struct imrazgul_encoded said = encode(src, bytes, table, 6 * ROWS, false, written, sizeof written);
    __asm__ volatile("pushfq; andq $~0x100, (%%rsp); popfq" ::: "memory", "cc");
    return said;
}

static struct imrazgul_encoded (*volatile trapped_encode)(encoder *, const uint8_t *, size_t) = trap_encode;

/* Decodes one frame after another and encodes each again, and prints the instructions of an encode. */
static void count_encode(const char *name, const char *input, size_t bytes) {
    const uint8_t *src = (const uint8_t *)input;
    trapped_encode(two_instructions_more, src, bytes);
    unsigned long around = traps - 2, sum = 0, calls = 0;
    for (size_t at = 0; at < bytes;) {
        struct imrazgul_decoded frame = imrazgul_resp2_decode(src + at, bytes - at, table, 6 * ROWS);
        if (frame.answer != IMRAZGUL_FRAME) {
            return;
        }
        struct imrazgul_encoded said = trapped_encode(imrazgul_resp2_encode, src + at, bytes - at);
        sum += traps - around;
        calls++;
        if (said.refusal != 0 || said.bytes != frame.consumed) {
            printf("| %s | not its own bytes |\n", name);
            return;
        }
        at += frame.consumed;
    }
    if (calls != 0) {
        printf("| %s | %lu | %lu | %lu | written |\n", name, (unsigned long)bytes, calls, (sum + calls / 2) / calls);
    }
}

/* Decodes one frame after another, and prints the instructions of a call. No decoder: the encoder's are counted. */
static void count(decoder *decode, const char *name, const char *input, size_t bytes) {
    if (decode == NULL) {
        count_encode(name, input, bytes);
        return;
    }
    const uint8_t *src = (const uint8_t *)input;
    trapped(two_instructions, src, bytes);
    unsigned long around = traps - 2, sum = 0, calls = 0;
    struct imrazgul_decoded said;
    size_t at = 0;
    do {
        said = trapped(decode, src + at, bytes - at);
        sum += traps - around;
        calls++;
        at += said.consumed;
    } while (said.answer == IMRAZGUL_FRAME && at < bytes);
    const char *answer = said.answer == IMRAZGUL_FRAME        ? "frame"
                         : said.answer == IMRAZGUL_UNFINISHED ? "unfinished"
                                                              : "refused";
    printf("| %s | %lu | %lu | %lu | %s |\n", name, (unsigned long)bytes, calls, (sum + calls / 2) / calls, answer);
}

/* ---- inputs ---- */

static char text[4 << 20];
static size_t length;

static void put(const char *more) {
    while (*more != 0) {
        text[length++] = *more++;
    }
}

static void put_number(const char *format, unsigned n) { length += (size_t)sprintf(text + length, format, n); }

static void put_blob(unsigned n) {
    put_number("$%u\r\n", n);
    for (unsigned i = 0; i < n; i++) {
        text[length++] = (char)('a' + i % 26);
    }
    put("\r\n");
}

static void put_set(unsigned i) {
    char value[20];
    put_number("*3\r\n$3\r\nSET\r\n$10\r\nkey:%06u\r\n", i);
    put_number("$%u\r\n", (unsigned)sprintf(value, "value-%u", i));
    put(value);
    put("\r\n");
}

/* Counts the input that was put together, and, where cut says how, the same without its end. */
static void counts(decoder *decode, const char *name, const char *cut, size_t kept) {
    count(decode, name, text, length);
    if (cut != NULL) {
        count(decode, cut, text, kept);
    }
    length = 0;
}

static void made(decoder *decode) {
    put("+OK\r\n");
    counts(decode, "`+OK`", "unfinished `+OK` and CR", 4);
    count(decode, "unfinished empty", text, 0);
    put(":7\r\n");
    counts(decode, "`:7`", NULL, 0);
    put("$5\r\nhello\r\n");
    counts(decode, "`$5` blob", NULL, 0);
    put_set(1);
    counts(decode, "SET command", "unfinished SET command, half", length / 2);
    for (unsigned i = 0; i < 10000; i++) {
        put_set(i);
    }
    counts(decode, "10,000 SET commands, each", NULL, 0);
    put("*200\r\n");
    for (unsigned i = 0; i < 100; i++) {
        put_number("$7\r\nlane:%02u\r\n$8\r\n", i);
        put_number("%u\r\n", 10000000 + i * 7919);
    }
    counts(decode, "100 lanes, array", "unfinished 100 lanes, last byte", length - 1);
    put("*4000\r\n");
    for (unsigned i = 0; i < 4000; i++) {
        put_number(":%u\r\n", i * 104729 % 10000019);
    }
    counts(decode, "4,000 integers", "unfinished 4,000 integers, last byte", length - 1);
    put("*1000\r\n");
    for (unsigned i = 0; i < 1000; i++) {
        put_blob(32);
    }
    counts(decode, "1,000 blobs of 32", NULL, 0);
    put_blob(1 << 20);
    counts(decode, "1 MiB blob", "unfinished 1 MiB blob, last byte", length - 1);
    put("+");
    for (unsigned i = 0; i < 60000; i++) {
        put("x");
    }
    put("\r\n");
    counts(decode, "60 KB line", "unfinished 60 KB line, last byte", length - 1);
    for (unsigned i = 0; i < 31; i++) {
        put("*1\r\n");
    }
    put("*0\r\n");
    counts(decode, "32 deep", "unfinished 32 deep, last byte", length - 1);
}

static void recorded(decoder *decode, const char *name) {
    int fd = open(name, 0);
    for (long n = 1; n > 0 && length < sizeof text; length += (size_t)(n > 0 ? n : 0)) {
        n = read(fd, text + length, sizeof text - length);
    }
    close(fd);
    counts(decode, name, NULL, 0);
}

int main(int words, char **word) {
    signal(SIGTRAP, trap);
    for (size_t i = 0; i < sizeof decoders / sizeof decoders[0]; i++) {
        printf("## %s\n\n| input | bytes | calls | instructions a call | last answer |\n|---|--:|--:|--:|---|\n",
               decoders[i].name);
        made(decoders[i].decode);
        for (int k = 1; k < words; k++) {
            recorded(decoders[i].decode, word[k]);
        }
    }
    return 0;
}
