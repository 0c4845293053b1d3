/* lugsheet_fresh as the broker calls it: the bytes that document 01 names, other lengths refused, nothing written outside the buffer. */
#include "lugsheet.h"

#include <stdio.h>
#include <string.h>

#define ROOM 2000
#define GUARD 0xa5

static int failures;

static void expect(int holds, const char *what, size_t length)
{
    if (!holds) {
        printf("fresh: %s, length %zu\n", what, length);
        failures++;
    }
}

static int untouched(const uint8_t *bytes, size_t from, size_t to)
{
    for (size_t i = from; i < to; i++)
        if (bytes[i] != GUARD)
            return 0;
    return 1;
}

static void try_length(size_t length)
{
    static uint8_t bytes[ROOM];
    memset(bytes, GUARD, sizeof bytes);
    uint64_t answer = lugsheet_fresh(bytes, length);
    if (length != LUGSHEET_BENCH_SIZE) {
        expect(answer == LUGSHEET_REFUSED + ((uint64_t)LUGSHEET_ROOM << 32), "another length is refusal 7 at 0", length);
        expect(untouched(bytes, 0, ROOM), "a refusal writes nothing", length);
        return;
    }
    expect(answer == 0, "the answer is 0", length);
    expect(bytes[0] == 'B' && bytes[1] == 'N', "the mark is BN", length);
    int zero = 1;
    for (size_t i = 2; i < length; i++)
        zero &= bytes[i] == 0;
    expect(zero, "every number is 0", length);
    expect(untouched(bytes, length, ROOM), "nothing past the bench is written", length);
}

int main(void)
{
    for (size_t length = 0; length < ROOM; length++)
        try_length(length);
    printf("fresh: %d lengths, %d failures\n", ROOM, failures);
    return failures != 0;
}
