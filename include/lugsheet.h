/* Lugsheet: shortest placement of one row of cells, in slices. Link with liblugsheet.a.
 *
 * Every call answers one uint64_t: a result, or a refusal (LUGSHEET_REFUSED is set). A refused call has written nothing. No call trusts
 * its caller: any bytes of any length may be handed in. Buffers handed to one call must not overlap; a buffer of length 0 still needs a
 * valid pointer. The library keeps nothing between calls: all that a run has done so far is in the caller's bench. So threads may call it at
 * the same time; a slice takes at most 40 KB of stack and any other call at most 28 KB (tested on the largest row, not proved). What is proved of
 * each call is in docs/; this header is not checked against the library by any proof.
 *
 * A whole run, with nothing else to do in between:
 *
 *     uint8_t bench[LUGSHEET_BENCH_SIZE], placement[LUGSHEET_PLACEMENT_SIZE(LUGSHEET_CELLS_MAX)];
 *     uint64_t cells = lugsheet_check(row, row_length), answer = lugsheet_fresh(bench, sizeof bench);
 *     if (LUGSHEET_IS_REFUSED(cells))
 *         return report(LUGSHEET_NUMBER(cells), LUGSHEET_PLACE(cells));
 *     while (!LUGSHEET_IS_REFUSED(answer) && !LUGSHEET_FINISHED(answer))
 *         answer = lugsheet_slice(row, row_length, bench, sizeof bench, 100);
 *     answer = lugsheet_placement(row, row_length, bench, sizeof bench, placement, LUGSHEET_PLACEMENT_SIZE(cells));
 *
 * A program with other duties does them between two slices. It may save the bench after any slice and go on from there later, in another
 * process or on another machine. All it must keep is the row and the bench, unaltered.
 */
#ifndef LUGSHEET_H
#define LUGSHEET_H

#include <stddef.h>
#include <stdint.h>

#ifdef __cplusplus
extern "C" {
#endif

/* The row: a run of records, each opened by a mark of two ASCII letters. Numbers are little endian, with nothing between them.
 *
 *     mark  then            meaning                                      range
 *     RW    u32, u16, u16   row width in sites; cells n; nets m          0..1,000,000; 0..256; 0..512
 *     CE    u32             width of the next cell                       1..1,000,000
 *     NT    u32             opens a net of this weight                   1..1,000
 *     FP    i32             a fixed pin of the net, at this site         -1,000,000..1,000,000
 *     MP    u16, u32        a pin on a cell: its number; its offset      below n; 0 up to and including the cell's width
 *     EN                    end
 *
 * Order: one RW, n CE, m nets, EN. A net is NT, then its FP and MP in any order, at least one MP. Cells are numbered from 0, left to
 * right. Offsets count from the cell's left edge. A later MP on a cell already named in that net replaces the earlier offset. */
#define LUGSHEET_WIDTH_MAX 1000000
#define LUGSHEET_CELLS_MAX 256
#define LUGSHEET_NETS_MAX 512
#define LUGSHEET_WEIGHT_MAX 1000
#define LUGSHEET_FIXED_MAX 1000000  /* and -1,000,000 on the left */
#define LUGSHEET_PINS_MAX 2048      /* FP and MP records of a row together, replaced ones too */
#define LUGSHEET_ROW_SIZE_MAX 21004 /* no row that is taken is longer: all cells, all nets, all pins MP */

/* The bench: how far a run has come. It is always this long.
 *
 *     from byte  type      holds
 *     0          2 bytes   the mark BN
 *     2          u16       cells opened
 *     4          u8        1 while a clump is in hand, else 0
 *     5          u16       clumps, the one in hand last
 *     7          u32       slope changes carried by joins so far, at most 10,240
 *     11         u16, u32  for each clump: its cells; its left edge (0 for the one in hand)
 *
 * All further bytes are 0. */
#define LUGSHEET_BENCH_SIZE 1547
#define LUGSHEET_CARRIED_MAX 10240

/* The placement: for each cell, in order, the site of its left edge as u32, little endian. Legal: every cell starts at or after its left
 * neighbour's end, and the last ends at or before the row's width. */
#define LUGSHEET_PLACEMENT_SIZE(cells) (4 * (size_t)(cells))

/* A slice's answer is 2 * steps + finished. Ask only where it is no refusal. */
#define LUGSHEET_STEPS(answer) ((uint32_t)((answer) >> 1))
#define LUGSHEET_FINISHED(answer) (((answer) & 1) != 0)

/* A refusal is 2^63 + number * 2^32 + place. */
#define LUGSHEET_REFUSED (UINT64_C(1) << 63)
#define LUGSHEET_IS_REFUSED(answer) (((answer) & LUGSHEET_REFUSED) != 0)
#define LUGSHEET_NUMBER(answer) ((unsigned)(((answer) >> 32) & 0x7fffffff))
#define LUGSHEET_PLACE(answer) ((uint32_t)((answer) & 0xffffffff))

/* The numbers, and what the place is. Records count from 0, the RW record. Reading goes left to right and the first fault wins; a row
 * read to its end can then be refused with 3, 6, 7, 8, 9 and 10, in this order. */
enum lugsheet_refusal {
    LUGSHEET_CUT = 1,        /* bytes end inside a record or before EN: that record */
    LUGSHEET_MARK = 2,       /* not a mark, or not allowed there: that record */
    LUGSHEET_TAIL = 3,       /* bytes follow EN: EN's record + 1 */
    LUGSHEET_RANGE = 4,      /* a number outside its range: that record */
    LUGSHEET_LONELY = 5,     /* a net closes with no pin on a cell: the closing record */
    LUGSHEET_FULL = 6,       /* the widths add to more than the row's: EN's record */
    LUGSHEET_ROOM = 7,       /* a bench or a placement buffer of another length: 0 */
    LUGSHEET_BENCH = 8,      /* the bench is not in form: 0 */
    LUGSHEET_UNFINISHED = 9, /* a placement asked of a bench that is not finished: 0 */
    LUGSHEET_OVERLAP = 10    /* a measured placement is not legal: the first cell that overlaps or ends past the row */
};

/* Checks a row. Answers n, the number of its cells, or refusal 1 to 6. Writes nothing. Each of the three calls below that take a row
 * checks it again; this one serves to learn n, or to turn a row down before a run. */
uint64_t lugsheet_check(const uint8_t *row, size_t row_length);

/* Makes the bench a fresh one. Answers 0, or LUGSHEET_ROOM where length is not LUGSHEET_BENCH_SIZE. */
uint64_t lugsheet_fresh(uint8_t *bench, size_t length);

/* Takes at most budget steps on the bench. Answers 2 * steps taken + 1 if the run is finished, or refusal 1 to 8. It takes exactly the
 * smaller of the budget and the steps left: budget 0 takes none and tells whether the run is finished (0 or 1). A row of n cells takes at
 * most 3 * n - 1 steps in all, an empty one none. Any cut of a run into slices leaves the same bench after the same number of steps.
 * A bench that no run of this row left, but in form, is carried on as it stands; nothing is then promised of length or steps. Writes the
 * bench. */
uint64_t lugsheet_slice(const uint8_t *row, size_t row_length, uint8_t *bench, size_t bench_length, uint32_t budget);

/* The placement that a finished run found: a shortest legal one, and of these the one with every cell leftmost. Answers its netlength, at
 * most 1,024,000,000,000, or refusal 1 to 9. placement_length must be 4 * n. Writes the placement. */
uint64_t lugsheet_placement(const uint8_t *row, size_t row_length, const uint8_t *bench, size_t bench_length, uint8_t *placement,
                            size_t placement_length);

/* Measures anyone's placement of the row. Answers its netlength: over all nets, weight times the distance from leftmost to rightmost pin.
 * Or refusal 1 to 7 or 10. placement_length must be 4 * n. Writes nothing. */
uint64_t lugsheet_measure(const uint8_t *row, size_t row_length, const uint8_t *placement, size_t placement_length);

#ifdef __cplusplus
}
#endif

#endif
