/* What the two sides of a far call share. near.c has the calls as a program of this machine links them; far.c makes
 * them in an x86-64 program that has our library. compare/far/link builds both, with a line CALL(name) in calls.inc for
 * each call that the library exports. */
#include "shapes.h"

enum call {
#define CALL(name) CALL_##name,
#include "calls.inc"
#undef CALL
    CALLS
};

/* A slice that a call is lent: its copy in the shared memory. */
struct part {
    uint64_t at; /* from the front of that memory */
    uint64_t bytes;
};

enum side { NEAR, FAR };

/* The front of the shared memory. */
struct shared {
    uint32_t turn;      /* the side that works; the other waits */
    uint32_t asleep[2]; /* whether a side waits in the kernel */
    int near;           /* the process of the near side */
    uint64_t call;
    struct part part[3];
    uint64_t word;    /* a parameter that is no slice */
    uint64_t said[4]; /* what the call gave back */
};

/* Room for a source of more than 4 GiB. Only what is written takes memory. */
#define SHARED_BYTES ((uint64_t)5 << 30)

/* Where the shared memory is open in the x86-64 program. */
enum { SHARED_FD = 3 };

long syscall(long number, ...);

enum { FUTEX_WAIT = 0, FUTEX_WAKE = 1 };

static inline void give_turn(struct shared *s, enum side to) {
    __atomic_store_n(&s->turn, to, __ATOMIC_SEQ_CST);
    if (__atomic_load_n(&s->asleep[to], __ATOMIC_SEQ_CST)) {
        syscall(SYS_futex, &s->turn, FUTEX_WAKE, 1, (void *)0, (void *)0, 0);
    }
}

/* Looks for its turn SPINS times, then sleeps: with a processor for each side an answer comes within some microseconds.
 * Where that was in vain, as it is with one processor for both, it looks less often for some calls. While it sleeps it
 * calls `alone` at least once a second, to see whether there is another side still. */
static inline void await_turn(struct shared *s, enum side mine, void (*alone)(void)) {
    static int in_vain, calls;
    const struct { int64_t seconds, nanoseconds; } second = {1, 0};
    int looks = in_vain && calls++ % 64 != 0 ? SPINS / 64 : SPINS;
    for (int i = 0; i < looks; i++) {
        if (__atomic_load_n(&s->turn, __ATOMIC_ACQUIRE) == (uint32_t)mine) {
            in_vain = 0;
            return;
        }
    }
    in_vain = 1;
    __atomic_store_n(&s->asleep[mine], 1, __ATOMIC_SEQ_CST);
    while (__atomic_load_n(&s->turn, __ATOMIC_SEQ_CST) != (uint32_t)mine) {
        if (syscall(SYS_futex, &s->turn, FUTEX_WAIT, 1 - (uint32_t)mine, &second, (void *)0, 0) != 0) {
            alone();
        }
    }
    __atomic_store_n(&s->asleep[mine], 0, __ATOMIC_SEQ_CST);
}
