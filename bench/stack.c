/* Measures the stack that a call of our library takes: paints what lies below, calls, and looks how far the paint is gone.
 * Prints the inputs, and for each call its name and the bytes that it took on each input at the most, or - where it does not
 * take one. bench/stack compiles and runs it, with a line CALL(name) in calls.inc for each call that the library exports. */
#include "shapes.h"

int printf(const char *format, ...);

enum { BELOW = 1 << 16, PAINT = 0xa5, WORDS = 6 * 4096 };

static uint64_t table[WORDS];
static uint8_t text[1 << 12], out[1 << 16], digits[20];
static size_t length;
static uint64_t number;
static struct imrazgul_decoded said;

/* The bytes from the caller's stack pointer down to the last one that the call changed: the return address is among them,
 * and an argument that the stack has. */
#define TAKEN(name, call)                               \
    static uint64_t taken_##name(void) {                \
        uint8_t *top;                                   \
        __asm__ volatile("mov %%rsp, %0" : "=r"(top));  \
        volatile uint8_t *low = top - BELOW;            \
        for (size_t i = 0; i < BELOW; i++) {            \
            low[i] = PAINT;                             \
        }                                               \
        call;                                           \
        size_t i = 0;                                   \
        while (i < BELOW && low[i] == PAINT) {          \
            i++;                                        \
        }                                               \
        return BELOW - i;                               \
    }

#define DECODE(name) TAKEN(name, said = name(text, length, table, WORDS))
#define DECODE_AT(name) TAKEN(name, said = name(text, length, 0, table, WORDS))
#define ENCODE(name) TAKEN(name, name(text, length, table, 6 * said.rows, true, out, sizeof out))
#define LENGTH(name) TAKEN(name, name(text, length, table, 6 * said.rows, true))
#define U64_DIGITS(name) TAKEN(name, name(number, digits))
#define I64_DIGITS(name) TAKEN(name, name((int64_t)number, digits))
#define CALL(name) SHAPE_##name(name)
#include "calls.inc"
#undef CALL
#undef DECODE
#undef DECODE_AT
#undef ENCODE
#undef LENGTH
#undef U64_DIGITS
#undef I64_DIGITS

static void put(const char *s) {
    while (*s != 0) {
        text[length++] = (uint8_t)*s++;
    }
}

static void put_times(size_t n, const char *s) {
    for (size_t i = 0; i < n; i++) {
        put(s);
    }
}

/* What stands before and behind the frame at the bottom, so many times each. */
static const struct input {
    const char *name;
    size_t times;
    const char *before, *behind;
} inputs[] = {
    {"one frame", 0, "", ""},
    {"32 deep", 31, "*1\r\n", ""},
    {"32 deep, each with an attribute", 31, "|1\r\n:1\r\n:2\r\n*1\r\n", ""},
    {"32 deep by attributes of values", 31, "|1\r\n:1\r\n", "*0\r\n"},
};

static const char *const bottoms[] = {
    "*0\r\n",
    "|0\r\n*0\r\n",
    "+OK\r\n",
    "-aaaaaaaaaaaaaaaaaaaaaaaaaaaaaaaaaaaaaaaaaaaaaaaaaaaaaaaaaaaaaaaaaaaaaaaaaaaaaaaaaaaaaaaaaaaaaaaaaaaaaaaaaaaaaaaaaaaaaaaaaaaaaaaaaaaa\r\n",
    ":7\r\n",
    ":-12\r\n",
    ":12345678901234567890123\r\n",
    ":-12345678901234567890123\r\n",
    ":x\r\n",
    "$3\r\nabc\r\n",
    "$0000000000000000000000000000003\r\nabc\r\n",
    "$-1\r\n",
    "$-00000000000000000000000000001\r\n",
    "$",
    "*?\r\n",
    "*1\r\n*1\r\n",
    "%0\r\n",
    "~0\r\n",
    ">0\r\n",
    ",-1.5e3\r\n",
    ",infinity\r\n",
    "#t\r\n",
    "_\r\n",
    "!1\r\na\r\n",
    "=5\r\ntxt:a\r\n",
    "(1\r\n",
    ";0\r\n",
    ";1\r\na\r\n",
    ".\r\n",
    "HELLO 3 AUTH u p SETNAME n\r\n",
};

static void make(const struct input *in, const char *bottom) {
    length = 0;
    put_times(in->times, in->before);
    put(bottom);
    put_times(in->times, in->behind);
}

/* The most that a decoder takes with any bottom, or 0 where it does not take the input with an empty array there. */
static uint64_t decodes(uint64_t taken(void), const struct input *in) {
    uint64_t most = 0;
    for (size_t b = 0; b < sizeof bottoms / sizeof bottoms[0]; b++) {
        make(in, bottoms[b]);
        uint64_t bytes = taken();
        if (b == 0 && said.answer != IMRAZGUL_FRAME) {
            return 0;
        }
        most = bytes > most ? bytes : most;
    }
    return most;
}

/* The same of the encoder, on the tables that the RESP2 decoder makes of the input. */
static uint64_t encodes(uint64_t taken(void), const struct input *in) {
    uint64_t most = 0;
    for (size_t b = 0; b < sizeof bottoms / sizeof bottoms[0]; b++) {
        make(in, bottoms[b]);
        said = imrazgul_resp2_decode(text, length, table, WORDS);
        if (said.answer == IMRAZGUL_FRAME) {
            uint64_t bytes = taken();
            most = bytes > most ? bytes : most;
        }
    }
    return most;
}

/* Digits are made of a number and no input. */
static uint64_t writes_digits(uint64_t taken(void), const struct input *in) {
    uint64_t most = 0;
    for (number = 1; in == inputs && number < UINT64_MAX / 100; number = number * 10 + 9) {
        uint64_t bytes = taken();
        most = bytes > most ? bytes : most;
    }
    return most;
}

int main(void) {
    static const struct {
        const char *name;
        uint64_t (*taken)(void);
        uint64_t (*most)(uint64_t taken(void), const struct input *in);
    } calls[] = {
#define DECODE(name) {#name, taken_##name, decodes},
#define DECODE_AT(name) {#name, taken_##name, decodes},
#define ENCODE(name) {#name, taken_##name, encodes},
#define LENGTH(name) {#name, taken_##name, encodes},
#define U64_DIGITS(name) {#name, taken_##name, writes_digits},
#define I64_DIGITS(name) {#name, taken_##name, writes_digits},
#define CALL(name) SHAPE_##name(name)
#include "calls.inc"
    };
    enum { INPUTS = sizeof inputs / sizeof inputs[0] };
    for (size_t i = 0; i < INPUTS; i++) {
        printf("%s%s", i == 0 ? "" : "|", inputs[i].name);
    }
    printf("\n");
    for (size_t c = 0; c < sizeof calls / sizeof calls[0]; c++) {
        printf("%s", calls[c].name);
        for (size_t i = 0; i < INPUTS; i++) {
            uint64_t most = calls[c].most(calls[c].taken, &inputs[i]);
            if (most == 0) {
                printf(" -");
            } else {
                printf(" %u", (unsigned)most);
            }
        }
        printf("\n");
    }
    return 0;
}
