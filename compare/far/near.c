/* This machine's side of calls.h: the calls of our library, each passed on to the x86-64 program FAR_PROGRAM, which the
 * first call starts by the command FAR_RUN. One call is made at a time. */
#define _GNU_SOURCE
#include <pthread.h>
#include <signal.h>
#include <stdio.h>
#include <stdlib.h>
#include <string.h>
#include <sys/mman.h>
#include <sys/syscall.h>
#include <sys/wait.h>
#include <unistd.h>

#define SPINS 20000
#include "calls.h"

static pthread_mutex_t one_at_a_time = PTHREAD_MUTEX_INITIALIZER;
static struct shared *s;
static pid_t far;
static uint64_t end; /* of the parts of this call */

static void fail(const char *why) {
    fprintf(stderr, "far calls: %s\n", why);
    abort();
}

static void alone(void) {
    if (waitpid(far, NULL, WNOHANG) != 0) {
        fail("the x86-64 program has ended");
    }
}

static void stop(void) {
    kill(far, SIGKILL);
    waitpid(far, NULL, 0);
}

static void start(void) {
    int fd = memfd_create("far", 0);
    if (fd < 0 || ftruncate(fd, SHARED_BYTES) != 0) {
        fail("no memory to share");
    }
    s = mmap(NULL, SHARED_BYTES, PROT_READ | PROT_WRITE, MAP_SHARED, fd, 0);
    if (s == MAP_FAILED) {
        fail("no memory to share");
    }
    s->near = getpid();
    far = fork();
    if (far == 0) {
        if (fd == SHARED_FD || dup2(fd, SHARED_FD) == SHARED_FD) {
            execl(FAR_RUN, FAR_RUN, "run", FAR_PROGRAM, (char *)NULL);
        }
        _exit(127);
    }
    if (far < 0) {
        fail("no process for the x86-64 program");
    }
    close(fd);
    atexit(stop);
}

/* What lies before and behind a part that may be written. */
enum { AROUND = 64, MARK = 0xa5 };

static void begin(void) {
    pthread_mutex_lock(&one_at_a_time);
    if (s == NULL) {
        start();
    }
    end = sizeof(struct shared);
}

static void put(int part, const void *from, uint64_t bytes) {
    uint64_t at = (end + AROUND + 63) / 64 * 64;
    end = at + bytes + AROUND;
    if (bytes > SHARED_BYTES || end > SHARED_BYTES) {
        fail("a slice is longer than the memory that is shared");
    }
    s->part[part] = (struct part){at, bytes};
    memcpy((char *)s + at, from, bytes);
}

/* A part that the call may write. */
static inline void lend(int part, const void *from, uint64_t bytes) {
    put(part, from, bytes);
    char *at = (char *)s + s->part[part].at;
    memset(at - AROUND, MARK, AROUND);
    memset(at + bytes, MARK, AROUND);
}

static inline void take(int part, void *to) {
    uint64_t bytes = s->part[part].bytes;
    unsigned char *at = (unsigned char *)s + s->part[part].at;
    for (int i = 0; i < AROUND; i++) {
        if (at[-1 - i] != MARK || at[bytes + i] != MARK) {
            fail("a call wrote past what it was lent");
        }
    }
    memcpy(to, at, bytes);
}

static void pass(enum call call) {
    s->call = call;
    give_turn(s, FAR);
    await_turn(s, NEAR, alone);
}

static void done(void) { pthread_mutex_unlock(&one_at_a_time); }

#define DECODES(name, place, ...)                                                                     \
    struct imrazgul_decoded name(__VA_ARGS__) {                                                       \
        begin();                                                                                      \
        put(0, src, src_len);                                                                         \
        lend(1, table, 8 * words);                                                                    \
        s->word = place;                                                                              \
        pass(CALL_##name);                                                                            \
        take(1, table);                                                                               \
        struct imrazgul_decoded d = {                                                                 \
            .answer = s->said[0], .refusal = s->said[1], .consumed = s->said[2], .rows = s->said[3]}; \
        done();                                                                                       \
        return d;                                                                                     \
    }
#define DECODE(name) DECODES(name, 0, const uint8_t *src, size_t src_len, uint64_t *table, size_t words)
#define DECODE_AT(name) DECODES(name, at, const uint8_t *src, size_t src_len, size_t at, uint64_t *table, size_t words)
#define ENCODE(name)                                                                                              \
    struct imrazgul_encoded name(const uint8_t *src, size_t src_len, const uint64_t *table, size_t words,         \
                                 bool ints_as_bulk, uint8_t *out, size_t out_len) {                               \
        begin();                                                                                                  \
        put(0, src, src_len);                                                                                     \
        put(1, table, 8 * words);                                                                                 \
        lend(2, out, out_len);                                                                                    \
        s->word = ints_as_bulk;                                                                                   \
        pass(CALL_##name);                                                                                        \
        take(2, out);                                                                                             \
        struct imrazgul_encoded e = {.refusal = s->said[0], .bytes = s->said[1]};                                 \
        done();                                                                                                   \
        return e;                                                                                                 \
    }
#define LENGTH(name)                                                                                              \
    struct imrazgul_encoded name(const uint8_t *src, size_t src_len, const uint64_t *table, size_t words,         \
                                 bool ints_as_bulk) {                                                             \
        begin();                                                                                                  \
        put(0, src, src_len);                                                                                     \
        put(1, table, 8 * words);                                                                                 \
        s->word = ints_as_bulk;                                                                                   \
        pass(CALL_##name);                                                                                        \
        struct imrazgul_encoded e = {.refusal = s->said[0], .bytes = s->said[1]};                                 \
        done();                                                                                                   \
        return e;                                                                                                 \
    }
#define DIGITS(name, type)                     \
    uint64_t name(type n, uint8_t bytes[20]) { \
        begin();                               \
        s->word = (uint64_t)n;                 \
        lend(0, bytes, 20);                    \
        pass(CALL_##name);                     \
        take(0, bytes);                        \
        uint64_t unused = s->said[0];          \
        done();                                \
        return unused;                         \
    }
#define U64_DIGITS(name) DIGITS(name, uint64_t)
#define I64_DIGITS(name) DIGITS(name, int64_t)
#define TEXT_CALL(name, flag, ...)                                        \
    struct text_answer name(__VA_ARGS__) {                                \
        begin();                                                          \
        put(0, text, n);                                                  \
        s->word = flag;                                                   \
        pass(CALL_##name);                                                \
        struct text_answer a = {.code = s->said[0], .value = s->said[1]}; \
        done();                                                           \
        return a;                                                         \
    }
#define TEXT(name) TEXT_CALL(name, 0, const uint8_t *text, size_t n)
#define TEXT_FLAG(name) TEXT_CALL(name, three, const uint8_t *text, size_t n, _Bool three)

#define CALL(name) SHAPE_##name(name)
#include "calls.inc"
