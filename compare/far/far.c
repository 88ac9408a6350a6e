/* The x86-64 side of calls.h: makes each call that it is asked for, on the shared memory. It ends when the program that
 * asks has ended. It includes no header of the C library: include/x86-64 says why. */
#define SYS_futex 202
#define SPINS 4000
#include "calls.h"

void *mmap(void *address, size_t length, int protection, int flags, int fd, long offset);
int getppid(void);
void _exit(int status) __attribute__((noreturn));

enum { READ_AND_WRITE = 3, MAP_SHARED = 1 };

static struct shared *s;

static void alone(void) {
    if (getppid() != s->near) {
        _exit(0);
    }
}

static void *at(int part) { return (char *)s + s->part[part].at; }

static void say(uint64_t a, uint64_t b, uint64_t c, uint64_t d) {
    s->said[0] = a;
    s->said[1] = b;
    s->said[2] = c;
    s->said[3] = d;
}

#define DECODE(name)                                                                            \
    {                                                                                           \
        struct imrazgul_decoded d = name(at(0), s->part[0].bytes, at(1), s->part[1].bytes / 8); \
        say(d.answer, d.refusal, d.consumed, d.rows);                                           \
    }
#define DECODE_AT(name)                                                                                  \
    {                                                                                                    \
        struct imrazgul_decoded d = name(at(0), s->part[0].bytes, s->word, at(1), s->part[1].bytes / 8); \
        say(d.answer, d.refusal, d.consumed, d.rows);                                                    \
    }
#define ENCODE(name)                                                                                              \
    {                                                                                                             \
        struct imrazgul_encoded e = name(at(0), s->part[0].bytes, at(1), s->part[1].bytes / 8, s->word != 0, at(2), \
                                         s->part[2].bytes);                                                       \
        say(e.refusal, e.bytes, 0, 0);                                                                            \
    }
#define LENGTH(name)                                                                                            \
    {                                                                                                           \
        struct imrazgul_encoded e = name(at(0), s->part[0].bytes, at(1), s->part[1].bytes / 8, s->word != 0); \
        say(e.refusal, e.bytes, 0, 0);                                                                          \
    }
#define U64_DIGITS(name) say(name(s->word, at(0)), 0, 0, 0)
#define I64_DIGITS(name) say(name((int64_t)s->word, at(0)), 0, 0, 0)
#define TEXT(name)                                            \
    {                                                         \
        struct text_answer a = name(at(0), s->part[0].bytes); \
        say(a.code, a.value, 0, 0);                           \
    }
#define TEXT_FLAG(name)                                                     \
    {                                                                       \
        struct text_answer a = name(at(0), s->part[0].bytes, s->word != 0); \
        say(a.code, a.value, 0, 0);                                         \
    }

int main(void) {
    void *memory = mmap(NULL, SHARED_BYTES, READ_AND_WRITE, MAP_SHARED, SHARED_FD, 0);
    if (memory == (void *)-1) {
        return 1;
    }
    s = memory;
    for (;;) {
        await_turn(s, FAR, alone);
        switch (s->call) {
#define CALL(name)          \
    case CALL_##name:       \
        SHAPE_##name(name); \
        break;
#include "calls.inc"
#undef CALL
        default:
            return 1;
        }
        give_turn(s, NEAR);
    }
}
