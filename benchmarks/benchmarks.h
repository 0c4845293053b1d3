/* The parts of the benchmark: rows of several kinds, and two methods that place them without a proof. Both read the row's bytes themselves,
 * take them to be in form, write the placement as the library does, and answer the netlength. */
#ifndef BENCHMARKS_H
#define BENCHMARKS_H

#include "lugsheet.h"

enum kind {
    TYPICAL,  /* cells near their wished places: nets of 1 to 4 neighbours with fixed pins, weights 1 to 8 */
    TIES,     /* the same nets, but of equal weight and with fixed pins at nine sites in all: many equally short placements */
    ONE_CLUMP /* cells that wish the opposite order: each joins the one clump as soon as it is opened */
};

struct shape {
    enum kind kind;
    unsigned cells, nets;
    uint32_t sites;
    unsigned full; /* in hundredths: how much of the row the cells take */
};

/* Writes a row of this shape and answers its length. The state is that of a fixed sequence of numbers: the same state, the same row. */
size_t make_row(const struct shape *shape, uint64_t *state, uint8_t *row);

/* What a method keeps of a row. A net that has no fixed pin has them at the far ends, as document 01 says. */
struct net {
    uint32_t weight;
    unsigned left, right; /* its leftmost and rightmost cells */
    int32_t left_offset, right_offset, left_fixed, right_fixed;
};
struct read_row {
    uint32_t sites;
    unsigned cells, nets;
    uint32_t packed[LUGSHEET_CELLS_MAX + 1]; /* where each cell would be if all were packed from 0, and last where they would end */
    struct net net[LUGSHEET_NETS_MAX];
};
void read_row(const uint8_t *bytes, struct read_row *row);
void write_position(uint8_t *placement, unsigned cell, uint32_t position);
uint64_t netlength_of(const struct read_row *row, const uint8_t *placement);

/* The steps of document 01. */
uint64_t clumping(const uint8_t *bytes, uint8_t *placement);

/* The plain method (document 001, section 4): for each cell the least cost at or left of each site. It marks a byte for each cell and each
 * site that the cell can take: site_table says how many bytes that is. */
uint64_t site_by_site(const uint8_t *bytes, uint8_t *placement);
uint64_t site_table(const uint8_t *bytes);
#define SITE_TABLE_MOST (UINT64_C(1) << 26)

#endif
