/* Rows 1 to 8 of document 01 cut short at every byte and with every byte changed, and what its row 11 says: each call that takes a row must
 * answer what is stored beside the bytes, worked out by another program, and a refused call must leave its buffer alone.
 * A line of the file: the bytes in hex (- for none), and the u64 that check answers. */
#include "lugsheet.h"

#include <inttypes.h>
#include <stdio.h>
#include <string.h>

#define LINE_MOST 1024
#define HELD 0xa5

static uint8_t row[LINE_MOST], bench[LUGSHEET_BENCH_SIZE], sites[64];
static unsigned lines, failures;

static size_t decode(const char *hex)
{
    size_t length = 0;
    unsigned byte;
    if (hex[0] == '-')
        return 0;
    for (; sscanf(hex + 2 * length, "%2x", &byte) == 1; length++)
        row[length] = (uint8_t)byte;
    return length;
}

static void expect(int holds, const char *call)
{
    if (!holds) {
        printf("damaged: line %u: %s\n", lines, call);
        failures++;
    }
}

static int held(const uint8_t *bytes, size_t length)
{
    for (size_t i = 0; i < length; i++)
        if (bytes[i] != HELD)
            return 0;
    return 1;
}

/* A row that is refused is refused alike by every call, before all else. */
static void expect_refused(size_t length, uint64_t answer)
{
    memset(bench, HELD, sizeof bench);
    memset(sites, HELD, sizeof sites);
    expect(lugsheet_slice(row, length, bench, sizeof bench, 1) == answer && held(bench, sizeof bench), "slice");
    expect(lugsheet_placement(row, length, bench, sizeof bench, sites, sizeof sites) == answer && held(sites, sizeof sites), "placement");
    expect(lugsheet_measure(row, length, sites, sizeof sites) == answer, "measure");
}

int main(int count, char **names)
{
    char hex[LINE_MOST];
    uint64_t answer;
    FILE *file = count == 2 ? fopen(names[1], "r") : NULL;
    if (file == NULL) {
        fprintf(stderr, "damaged: give it the stored forms\n");
        return 2;
    }
    while (fscanf(file, "%1000s %" SCNu64, hex, &answer) == 2) {
        size_t length = decode(hex);
        lines++;
        expect(lugsheet_check(row, length) == answer, "check");
        if (LUGSHEET_IS_REFUSED(answer))
            expect_refused(length, answer);
    }
    printf("damaged: %u forms, %u failures\n", lines, failures);
    return failures != 0 || lines == 0;
}
