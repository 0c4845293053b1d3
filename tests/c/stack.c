/* How much stack each call takes, on the rows that it is given: a thread's stack is painted, the call made on it, and the paint looked for. A
 * broker's threads, and a small board, need to know; a call that takes more than its limit is a failure. */
#include "lugsheet.h"

#include <pthread.h>
#include <stdio.h>
#include <stdlib.h>
#include <string.h>

#define STACK (1u << 20)
#define PAINT 0x5a
#define KB 1024

static uint8_t row[65536], bench[LUGSHEET_BENCH_SIZE], sites[LUGSHEET_PLACEMENT_SIZE(LUGSHEET_CELLS_MAX)], *stack;
static size_t row_length, sites_length;
static uint64_t answer;

static void *nothing(void *unused) { return unused; }
static void *check(void *unused) { answer = lugsheet_check(row, row_length); return unused; }
static void *fresh(void *unused) { answer = lugsheet_fresh(bench, sizeof bench); return unused; }
static void *placement(void *unused) { answer = lugsheet_placement(row, row_length, bench, sizeof bench, sites, sites_length); return unused; }
static void *measure(void *unused) { answer = lugsheet_measure(row, row_length, sites, sites_length); return unused; }

/* A run step by step, so that a slice is given each of its benches, and once more in one slice. */
static void *slice(void *unused)
{
    do
        answer = lugsheet_slice(row, row_length, bench, sizeof bench, 1);
    while (!LUGSHEET_IS_REFUSED(answer) && !LUGSHEET_FINISHED(answer));
    if (!LUGSHEET_IS_REFUSED(answer) && !LUGSHEET_IS_REFUSED(answer = lugsheet_fresh(bench, sizeof bench)))
        answer = lugsheet_slice(row, row_length, bench, sizeof bench, UINT32_MAX);
    return unused;
}

/* In an order in which each finds what it asks for. */
static struct call {
    const char *name;
    void *(*call)(void *);
    size_t limit, most; /* bytes that it may take, and the most that it took */
} calls[] = {
    {"check", check, 28 * KB, 0},         {"fresh", fresh, 4 * KB, 0},      {"slice", slice, 40 * KB, 0},
    {"placement", placement, 28 * KB, 0}, {"measure", measure, 28 * KB, 0},
};
#define CALLS (sizeof calls / sizeof calls[0])

static _Noreturn void stop(const char *what)
{
    fprintf(stderr, "stack: %s\n", what);
    exit(2);
}

/* The bytes of stack that a thread running `call` touches. */
static size_t touched(void *(*call)(void *))
{
    pthread_attr_t attributes;
    pthread_t thread;
    memset(stack, PAINT, STACK);
    if (pthread_attr_init(&attributes) != 0 || pthread_attr_setstack(&attributes, stack, STACK) != 0 ||
        pthread_create(&thread, &attributes, call, NULL) != 0 || pthread_join(thread, NULL) != 0)
        stop("no thread can be started");
    size_t free_bytes = 0;
    while (free_bytes < STACK && stack[free_bytes] == PAINT)
        free_bytes++;
    return STACK - free_bytes;
}

static void read_row(const char *name)
{
    FILE *file = fopen(name, "rb");
    if (file == NULL || (row_length = fread(row, 1, sizeof row, file)) == 0 || fclose(file) != 0)
        stop("give it rows");
    uint64_t cells = lugsheet_check(row, row_length);
    if (LUGSHEET_IS_REFUSED(cells))
        stop("a row is refused");
    sites_length = LUGSHEET_PLACEMENT_SIZE(cells);
}

int main(int count, char **names)
{
    int failures = 0;
    if (count < 2 || posix_memalign((void **)&stack, 65536, STACK) != 0)
        stop("give it rows");
    size_t thread_alone = touched(nothing);
    for (int i = 1; i < count; i++) {
        read_row(names[i]);
        for (struct call *call = calls; call < calls + CALLS; call++) {
            size_t all = touched(call->call), bytes = all < thread_alone ? 0 : all - thread_alone;
            if (LUGSHEET_IS_REFUSED(answer))
                stop("a call is refused, and what it would take is not known");
            if (bytes > call->limit) {
                printf("stack: %s took %zu bytes on %s, its limit is %zu\n", call->name, bytes, names[i], call->limit);
                failures++;
            }
            call->most = bytes > call->most ? bytes : call->most;
        }
    }
    printf("stack:");
    for (struct call *call = calls; call < calls + CALLS; call++)
        printf(" %s %zu", call->name, call->most);
    printf(" bytes, %d failures\n", failures);
    return failures != 0;
}
