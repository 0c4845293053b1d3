/* The benchmark: benchmarks/run builds it and gives it a seed, and the word agree where nothing is to be timed.
 *
 * All rows of a table are first placed by all methods and compared. Then they take turns: in each round every method has a turn at every line
 * of the table, in which it places all rows of that line, as often as it needs to fill a while; one that would take too long places the next
 * few. What is printed is the median over the rounds; a ratio is the median of the ratios within each round, so that what slows the whole
 * machine for a time drops out. */
#include "benchmarks.h"

#include <inttypes.h>
#include <sched.h>
#include <stdio.h>
#include <stdlib.h>
#include <string.h>
#include <time.h>

#define CELLS_IN_ALL 4096 /* of the rows of a line: of fewer, a processor learns the branches by heart */
#define ROUNDS 31
#define WHILE 0.002       /* seconds that a turn takes at least */
#define TOO_LONG 0.05     /* seconds that a turn takes at most, unless that is less than FEW rows */
#define FEW 4
#define ALL_STEPS UINT32_MAX
#define METHODS 3
#define MICROSECONDS 1e6

struct sample {
    uint8_t bytes[LUGSHEET_ROW_SIZE_MAX], bench[LUGSHEET_BENCH_SIZE];
    size_t length;
    unsigned cells;
};

enum moment { FRESH, MIDDLE, LAST_STEP };

/* A line of a table. */
struct line {
    const char *name;
    struct shape shape;
    enum moment moment; /* where a run is to be stopped, if a slice of one step is asked for */
    struct sample *samples;
    unsigned rows;
    unsigned length[METHODS], next[METHODS]; /* rows in a turn of each method, 0 if it is left out; the row that comes next */
    double seconds[METHODS][ROUNDS];         /* for one row */
};

typedef uint64_t method(const struct sample *sample, uint8_t *placement);

static uint64_t seed;
static int timed;

static _Noreturn void stop(const struct line *line, unsigned number, const char *what)
{
    fflush(stdout);
    fprintf(stderr, "benchmarks: seed %" PRIu64 ", %s, %u cells, %u sites, row %u: %s\n", seed, line->name, line->shape.cells, line->shape.sites,
            number, what);
    exit(1);
}

static uint64_t by_library(const struct sample *sample, uint8_t *placement)
{
    uint8_t bench[LUGSHEET_BENCH_SIZE];
    lugsheet_fresh(bench, sizeof bench);
    lugsheet_slice(sample->bytes, sample->length, bench, sizeof bench, ALL_STEPS);
    return lugsheet_placement(sample->bytes, sample->length, bench, sizeof bench, placement, LUGSHEET_PLACEMENT_SIZE(sample->cells));
}

static uint64_t by_clumping(const struct sample *sample, uint8_t *placement)
{
    return clumping(sample->bytes, placement);
}

static uint64_t by_sites(const struct sample *sample, uint8_t *placement)
{
    return site_by_site(sample->bytes, placement);
}

/* One step from the sample's bench: from a copy, as the next time starts there too. */
static uint64_t by_step(const struct sample *sample, uint8_t *placement)
{
    uint8_t bench[LUGSHEET_BENCH_SIZE];
    (void)placement;
    memcpy(bench, sample->bench, sizeof bench);
    return lugsheet_slice(sample->bytes, sample->length, bench, sizeof bench, 1);
}

static uint64_t by_check(const struct sample *sample, uint8_t *placement)
{
    (void)placement;
    return lugsheet_check(sample->bytes, sample->length);
}

/* Whether the site by site method has room for these rows. */
static int has_table(const struct line *line)
{
    for (unsigned i = 0; i < line->rows; i++)
        if (site_table(line->samples[i].bytes) > SITE_TABLE_MOST)
            return 0;
    return 1;
}

static void compare(const struct line *line)
{
    int table = has_table(line);
    for (unsigned i = 0; i < line->rows; i++) {
        const struct sample *sample = &line->samples[i];
        uint8_t proved[LUGSHEET_PLACEMENT_SIZE(LUGSHEET_CELLS_MAX)], other[sizeof proved];
        size_t size = LUGSHEET_PLACEMENT_SIZE(sample->cells);
        uint64_t netlength = by_library(sample, proved);
        if (by_clumping(sample, other) != netlength || memcmp(proved, other, size) != 0)
            stop(line, i, "the unproved clumping differs from the library");
        if (table && (by_sites(sample, other) != netlength || memcmp(proved, other, size) != 0))
            stop(line, i, "the site by site method differs from the library");
    }
}

/* Whether all cells are in hand, as one clump. */
static int all_in_hand(const struct sample *sample)
{
    const uint8_t *bench = sample->bench;
    return bench[4] == 1 && bench[5] == 1 && bench[6] == 0 && (unsigned)(bench[11] | bench[12] << 8) == sample->cells;
}

/* The sample's bench as its run has left it at the moment of the line. */
static void make_bench(const struct line *line, unsigned number)
{
    struct sample *sample = &line->samples[number];
    uint8_t *bench = sample->bench;
    lugsheet_fresh(bench, LUGSHEET_BENCH_SIZE);
    uint32_t steps = LUGSHEET_STEPS(lugsheet_slice(sample->bytes, sample->length, bench, LUGSHEET_BENCH_SIZE, ALL_STEPS));
    uint32_t budget = line->moment == FRESH ? 0 : line->moment == MIDDLE ? steps / 2 : steps - 1;
    lugsheet_fresh(bench, LUGSHEET_BENCH_SIZE);
    if (lugsheet_slice(sample->bytes, sample->length, bench, LUGSHEET_BENCH_SIZE, budget) != 2 * (uint64_t)budget)
        stop(line, number, "its run can't be stopped there");
    if (line->shape.kind == ONE_CLUMP && line->moment == LAST_STEP && !all_in_hand(sample))
        stop(line, number, "not all cells are in hand before the last step");
}

/* Every line makes its rows from the seed and its own shape alone. */
static void make_samples(struct line *line)
{
    uint64_t state = UINT64_C(0x9e3779b97f4a7c15) * (2 * seed + 1);
    line->rows = CELLS_IN_ALL / line->shape.cells;
    line->samples = calloc(line->rows, sizeof *line->samples);
    if (line->samples == NULL)
        stop(line, 0, "out of memory");
    for (unsigned i = 0; i < line->rows; i++) {
        struct sample *sample = &line->samples[i];
        sample->length = make_row(&line->shape, &state, sample->bytes);
        sample->cells = line->shape.cells;
        if (lugsheet_check(sample->bytes, sample->length) != sample->cells)
            stop(line, i, "the library refuses the row");
        make_bench(line, i);
    }
    compare(line);
}

static double now(void)
{
    struct timespec time;
    clock_gettime(CLOCK_THREAD_CPUTIME_ID, &time);
    return (double)time.tv_sec + 1e-9 * (double)time.tv_nsec;
}

/* Seconds for one row, over so many that follow `*next`. */
static double turn(const struct line *line, method *place, unsigned length, unsigned *next)
{
    static uint8_t placement[LUGSHEET_PLACEMENT_SIZE(LUGSHEET_CELLS_MAX)];
    static volatile uint64_t kept; /* an answer that nobody looks at need not be worked out */
    double start = now();
    for (unsigned i = 0; i < length; i++) {
        kept = place(&line->samples[*next], placement);
        *next = *next + 1 < line->rows ? *next + 1 : 0;
    }
    (void)kept;
    return (now() - start) / length;
}

/* How many rows make a turn. */
static unsigned turn_length(const struct line *line, method *place)
{
    unsigned next = 0;
    if (place == by_sites && !has_table(line))
        return 0;
    double seconds = turn(line, place, FEW, &next), all = seconds * line->rows;
    if (all < TOO_LONG)
        return line->rows * (1 + (unsigned)(WHILE / all));
    return seconds * FEW < TOO_LONG ? (unsigned)(TOO_LONG / seconds) : FEW;
}

static void take_turns(struct line *lines, unsigned count, method *const *methods)
{
    for (struct line *line = lines; line < lines + count; line++)
        for (unsigned k = 0; k < METHODS; k++)
            line->length[k] = turn_length(line, methods[k]);
    for (unsigned round = 0; round < ROUNDS; round++)
        for (struct line *line = lines; line < lines + count; line++)
            for (unsigned k = 0; k < METHODS; k++)
                if (line->length[k] > 0)
                    line->seconds[k][round] = turn(line, methods[k], line->length[k], &line->next[k]);
}

static int by_size(const void *left, const void *right)
{
    double difference = *(const double *)left - *(const double *)right;
    return (difference > 0) - (difference < 0);
}

static double median(double *numbers)
{
    qsort(numbers, ROUNDS, sizeof numbers[0], by_size);
    return numbers[ROUNDS / 2];
}

static double median_ratio(const double *these, const double *those)
{
    double ratios[ROUNDS];
    for (unsigned i = 0; i < ROUNDS; i++)
        ratios[i] = these[i] / those[i];
    return median(ratios);
}

static void print_time(const struct line *line, unsigned method)
{
    double times[ROUNDS];
    memcpy(times, line->seconds[method], sizeof times);
    if (line->length[method] > 0)
        printf(" %.1f |", MICROSECONDS * median(times));
    else
        printf(" - |");
}

/* Of the first method to this one. */
static void print_ratio(const struct line *line, unsigned method)
{
    if (line->length[method] > 0)
        printf(" %.*f |", method == 1 ? 2 : 3, median_ratio(line->seconds[0], line->seconds[method]));
    else
        printf(" - |");
}

static size_t mean_length(const struct line *line)
{
    size_t sum = 0;
    for (unsigned i = 0; i < line->rows; i++)
        sum += line->samples[i].length;
    return sum / line->rows;
}

/* Makes and compares the rows; if they are timed, prints a table. */
static void table(const char *question, const char *columns, struct line *lines, unsigned count, method *const *methods)
{
    static const char *const moments[] = {"fresh", "in the middle of the run", "before the last step"};
    for (unsigned i = 0; i < count; i++)
        make_samples(&lines[i]);
    if (!timed)
        return;
    take_turns(lines, count, methods);
    printf("\n%s, in microseconds:\n\n| %s |\n|---|---|---|---|---|---|---|---|---|\n", question, columns);
    for (const struct line *line = lines; line < lines + count; line++) {
        printf("| %s | %u |", line->name, line->shape.cells);
        if (methods[0] == by_step)
            printf(" %s |", moments[line->moment]);
        else
            printf(" %u |", line->shape.sites);
        printf(" %zu |", mean_length(line));
        for (unsigned k = 0; k < METHODS; k++)
            print_time(line, k);
        for (unsigned k = 1; k < METHODS; k++)
            print_ratio(line, k);
        printf("\n");
    }
    fflush(stdout);
}

static void release(struct line *lines, unsigned count)
{
    for (unsigned i = 0; i < count; i++)
        free(lines[i].samples);
}

static void print_growth(const char *words, const struct line *first, const struct line *last)
{
    static const char *const names[METHODS] = {"library", "clumping", "site by site"};
    printf("\n%s:", words);
    for (unsigned k = 0; k < METHODS; k++)
        if (first->length[k] > 0 && last->length[k] > 0)
            printf("%s %s %.1f times", k == 0 ? "" : ",", names[k], median_ratio(last->seconds[k], first->seconds[k]));
    printf(".\n");
}

/* The table of the three methods; where its lines are of growing size, `growth` says of what. */
static void methods_table(const char *question, const char *growth, struct line *lines, unsigned count)
{
    static method *const methods[METHODS] = {by_library, by_clumping, by_sites};
    table(question, "rows | cells | sites | bytes | library | clumping | site by site | library : clumping | library : site by site", lines, count,
          methods);
    if (timed && growth != NULL)
        print_growth(growth, &lines[0], &lines[count - 1]);
    release(lines, count);
}

/* Some 8.7 sites a cell, so that three quarters full means cells of 6.5 sites. */
#define SITES(cells) ((cells) * 26 / 3)
#define OF_CELLS(kind, cells, full) {kind, cells, 2 * (cells), SITES(cells), full}
#define LENGTH(lines) ((unsigned)(sizeof(lines) / sizeof(lines)[0]))

static void growing_cells(void)
{
    static struct line lines[] = {
        {.name = "typical", .shape = OF_CELLS(TYPICAL, 16, 75)},  {.name = "typical", .shape = OF_CELLS(TYPICAL, 32, 75)},
        {.name = "typical", .shape = OF_CELLS(TYPICAL, 64, 75)},  {.name = "typical", .shape = OF_CELLS(TYPICAL, 128, 75)},
        {.name = "typical", .shape = OF_CELLS(TYPICAL, 256, 75)},
    };
    methods_table("One row, from 16 to 256 cells", "With 16 times the cells", lines, LENGTH(lines));
}

static void growing_sites(void)
{
    static struct line lines[] = {
        {.name = "typical", .shape = {TYPICAL, 32, 64, 100, 75}},    {.name = "typical", .shape = {TYPICAL, 32, 64, 1000, 75}},
        {.name = "typical", .shape = {TYPICAL, 32, 64, 10000, 75}},  {.name = "typical", .shape = {TYPICAL, 32, 64, 100000, 75}},
        {.name = "typical", .shape = {TYPICAL, 32, 64, 1000000, 75}},
    };
    methods_table("One row, from 100 to 1,000,000 sites", "With 10,000 times the sites", lines, LENGTH(lines));
}

static void kinds(void)
{
    static struct line lines[] = {
        {.name = "typical, 75 % full", .shape = OF_CELLS(TYPICAL, 256, 75)},
        {.name = "dense, 97 % full", .shape = OF_CELLS(TYPICAL, 256, 97)},
        {.name = "ties", .shape = OF_CELLS(TIES, 256, 75)},
        {.name = "one clump", .shape = OF_CELLS(ONE_CLUMP, 256, 75)},
    };
    methods_table("One row, of several kinds", NULL, lines, LENGTH(lines));
}

static void slices(void)
{
    static method *const methods[METHODS] = {by_step, by_check, by_library};
    static struct line lines[] = {
        {.name = "typical", .shape = OF_CELLS(TYPICAL, 16, 75), .moment = FRESH},
        {.name = "typical", .shape = OF_CELLS(TYPICAL, 16, 75), .moment = MIDDLE},
        {.name = "typical", .shape = OF_CELLS(TYPICAL, 256, 75), .moment = FRESH},
        {.name = "typical", .shape = OF_CELLS(TYPICAL, 256, 75), .moment = MIDDLE},
        {.name = "one clump", .shape = OF_CELLS(ONE_CLUMP, 256, 75), .moment = FRESH},
        {.name = "one clump", .shape = OF_CELLS(ONE_CLUMP, 256, 75), .moment = MIDDLE},
        {.name = "one clump", .shape = OF_CELLS(ONE_CLUMP, 256, 75), .moment = LAST_STEP},
        {.name = "one clump, 1 % full", .shape = {ONE_CLUMP, 256, 512, LUGSHEET_WIDTH_MAX, 1}, .moment = LAST_STEP},
    };
    table("One slice of one step", "rows | cells | bench | bytes | slice | check | whole run | slice : check | slice : whole run", lines,
          LENGTH(lines), methods);
    release(lines, LENGTH(lines));
}

/* One core, so that no turn pays for a move to another. Where that is not allowed the medians have to do. */
static void stay_on_one_core(void)
{
    cpu_set_t one;
    int core = sched_getcpu();
    CPU_ZERO(&one);
    CPU_SET(core < 0 ? 0 : (size_t)core, &one);
    (void)sched_setaffinity(0, sizeof one, &one);
}

int main(int count, char **words)
{
    if (count < 2 || count > 3 || (count == 3 && strcmp(words[2], "agree") != 0)) {
        fprintf(stderr, "benchmarks: use benchmarks/run\n");
        return 1;
    }
    seed = strtoull(words[1], NULL, 10);
    timed = count == 2;
    stay_on_one_core();
    growing_cells();
    growing_sites();
    kinds();
    slices();
    if (!timed)
        printf("benchmarks: seed %" PRIu64 ", the three methods agree on every row\n", seed);
    return 0;
}
