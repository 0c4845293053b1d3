/* The calls, made from C as the broker makes them. Requests come on standard input and replies go to standard output, so
 * that the tests run on any machine: the library is for x86-64, and may run here under an emulator.
 *
 * Every lent buffer is fenced. Loan 0 and 1: guard bytes on both sides; loan 2: the buffer ends where memory that may not be
 * touched begins, loan 3: it begins where such memory ends. A buffer lent for reading must hold the same bytes afterwards.
 * Which calls are linked is said at build time: -DCALL_FRESH and so on. With -DHEAP each buffer is a block of the heap of just its
 * length, and the fence is left to valgrind, which sees every access, and what rests on memory that was never written. */
#include <stdint.h>
#include <stdlib.h>
#include <string.h>
#include <sys/mman.h>
#include <sys/resource.h>
#include <unistd.h>

enum { FRESH = 1, CHECK, MEASURE, SLICE, PLACEMENT };
enum { CLEAN, BESIDE, READ_ONLY };

uint64_t lugsheet_fresh(uint8_t *bench, size_t bench_len);
uint64_t lugsheet_check(const uint8_t *row, size_t row_len);
uint64_t lugsheet_measure(const uint8_t *row, size_t row_len, const uint8_t *placement, size_t placement_len);
uint64_t lugsheet_slice(const uint8_t *row, size_t row_len, uint8_t *bench, size_t bench_len, uint32_t budget);
uint64_t lugsheet_placement(const uint8_t *row, size_t row_len, const uint8_t *bench, size_t bench_len, uint8_t *placement,
                            size_t placement_len);

#define FENCE 65536u       /* no access, on both sides; a multiple of any page */
#define ROOM (1u << 20)    /* the longest buffer, with its guards */
#define GUARD 48u
#define SECONDS 30u        /* a call that takes longer is taken not to return */

struct request {
    uint32_t call, budget, written; /* written: which of the three may be written, 3 for none */
    uint32_t length[3];
};

static uint8_t held[3][ROOM], *lent[3];

static void get(void *to, size_t size) {
    for (uint8_t *at = to; size > 0;) {
        ssize_t got = read(0, at, size);
        if (got <= 0) exit(got == 0 ? 0 : 3);
        at += got, size -= (size_t)got;
    }
}

static void put(const void *from, size_t size) {
    for (const uint8_t *at = from; size > 0;) {
        ssize_t gone = write(1, at, size);
        if (gone <= 0) exit(3);
        at += gone, size -= (size_t)gone;
    }
}

#ifdef HEAP

static void fence(void) {}

static void lend(int k, size_t length, uint32_t loan) {
    (void)loan;
    free(lent[k]);
    lent[k] = malloc(length);
    if (lent[k] == NULL) exit(3);
    memcpy(lent[k], held[k], length);
}

static int guards_hold(int k, size_t length) { return (void)k, (void)length, 1; }

#else

static uint8_t *area[3];

static void fence(void) {
    for (int k = 0; k < 3; k++) {
        uint8_t *all = mmap(NULL, ROOM + 2 * FENCE, PROT_NONE, MAP_PRIVATE | MAP_ANONYMOUS, -1, 0);
        if (all == MAP_FAILED || mprotect(all + FENCE, ROOM, PROT_READ | PROT_WRITE) != 0) exit(3);
        area[k] = all + FENCE;
    }
}

static uint8_t guard_byte(size_t at) { return (uint8_t)(at * 37 + 165); }

static void lend(int k, size_t length, uint32_t loan) {
    size_t start = loan % 4 == 2 ? ROOM - length : loan % 4 == 3 ? 0 : GUARD + loan % 8;
    lent[k] = area[k] + start;
    size_t from = start < GUARD ? 0 : start - GUARD, to = start + length + GUARD < ROOM ? start + length + GUARD : ROOM;
    for (size_t at = from; at < to; at++) area[k][at] = guard_byte(at);
    memcpy(lent[k], held[k], length);
}

static int guards_hold(int k, size_t length) {
    size_t start = (size_t)(lent[k] - area[k]), end = start + length;
    for (size_t at = start < GUARD ? 0 : start - GUARD; at < start; at++)
        if (area[k][at] != guard_byte(at)) return 0;
    for (size_t at = end; at < end + GUARD && at < ROOM; at++)
        if (area[k][at] != guard_byte(at)) return 0;
    return 1;
}

#endif

static uint64_t call(const struct request *r) {
    switch (r->call) {
#ifdef CALL_FRESH
    case FRESH: return lugsheet_fresh(lent[0], r->length[0]);
#endif
#ifdef CALL_CHECK
    case CHECK: return lugsheet_check(lent[0], r->length[0]);
#endif
#ifdef CALL_MEASURE
    case MEASURE: return lugsheet_measure(lent[0], r->length[0], lent[1], r->length[1]);
#endif
#ifdef CALL_SLICE
    case SLICE: return lugsheet_slice(lent[0], r->length[0], lent[1], r->length[1], r->budget);
#endif
#ifdef CALL_PLACEMENT
    case PLACEMENT: return lugsheet_placement(lent[0], r->length[0], lent[1], r->length[1], lent[2], r->length[2]);
#endif
    default: exit(4);
    }
}

static uint8_t trespass(const struct request *r) {
    for (int k = 0; k < 3; k++)
        if (!guards_hold(k, r->length[k])) return BESIDE;
    for (uint32_t k = 0; k < 3; k++)
        if (k != r->written && memcmp(lent[k], held[k], r->length[k]) != 0) return READ_ONLY;
    return CLEAN;
}

static const uint8_t linked[5] = {
#ifdef CALL_FRESH
    [FRESH - 1] = 1,
#endif
#ifdef CALL_CHECK
    [CHECK - 1] = 1,
#endif
#ifdef CALL_MEASURE
    [MEASURE - 1] = 1,
#endif
#ifdef CALL_SLICE
    [SLICE - 1] = 1,
#endif
#ifdef CALL_PLACEMENT
    [PLACEMENT - 1] = 1,
#endif
};

int main(void) {
    setrlimit(RLIMIT_CORE, &(struct rlimit){0, 0});
    fence();
    put(linked, sizeof linked);
    for (uint32_t loan = 0;; loan++) {
        static struct { uint64_t answer; uint8_t trespass, written[ROOM]; } __attribute__((packed)) reply;
        struct request r;
        get(&r, sizeof r);
        for (int k = 0; k < 3; k++) {
            if (r.length[k] > ROOM - 2 * GUARD) exit(3);
            get(held[k], r.length[k]);
            lend(k, r.length[k], loan + (uint32_t)k);
        }
        alarm(SECONDS);
        reply.answer = call(&r);
        alarm(0);
        reply.trespass = trespass(&r);
        size_t written = r.written < 3 ? r.length[r.written] : 0;
        if (written > 0) memcpy(reply.written, lent[r.written], written);
        put(&reply, 9 + written);
    }
}
