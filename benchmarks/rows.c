/* Rows of several kinds from a fixed sequence of numbers, and the reader that the unproved methods share. */
#include "benchmarks.h"

#include <string.h>

/* xorshift: what rand() gives differs from one C library to the next. */
static uint32_t draw(uint64_t *state, uint32_t limit)
{
    *state ^= *state << 13;
    *state ^= *state >> 7;
    *state ^= *state << 17;
    return (uint32_t)((*state >> 32) % limit);
}

static uint8_t *put(uint8_t *at, const char *mark, uint32_t value, unsigned size)
{
    *at++ = (uint8_t)mark[0];
    *at++ = (uint8_t)mark[1];
    for (unsigned i = 0; i < size; i++)
        *at++ = (uint8_t)(value >> 8 * i);
    return at;
}

static uint8_t *put_pin(uint8_t *at, unsigned cell, uint32_t offset)
{
    at = put(at, "MP", cell, 2);
    for (unsigned i = 0; i < 4; i++)
        *at++ = (uint8_t)(offset >> 8 * i);
    return at;
}

/* Widths from 1 on that add to `sum`: the rest beyond one site each goes round by random shares of 1 to 12. */
static void make_widths(uint64_t *state, unsigned cells, uint32_t sum, uint32_t *widths)
{
    uint64_t shares[LUGSHEET_CELLS_MAX], all = 0, before = 0;
    for (unsigned i = 0; i < cells; i++)
        all += shares[i] = 1 + draw(state, 12);
    for (unsigned i = 0; i < cells; i++) {
        uint64_t after = before + shares[i];
        widths[i] = 1 + (uint32_t)((sum - cells) * after / all - (sum - cells) * before / all);
        before = after;
    }
}

/* Some place within two cells of where the cell would be if all were spread evenly. */
static int32_t wished(const struct shape *shape, uint64_t *state, unsigned cell)
{
    uint32_t room = shape->sites / shape->cells;
    int32_t wish = (int32_t)((uint64_t)shape->sites * cell / shape->cells + draw(state, 4 * room + 1)) - (int32_t)(2 * room);
    return wish < LUGSHEET_FIXED_MAX ? wish : LUGSHEET_FIXED_MAX;
}

static int32_t fixed_pin(const struct shape *shape, uint64_t *state, unsigned cell)
{
    if (shape->kind == ONE_CLUMP)
        return (int32_t)((uint64_t)shape->sites * (shape->cells - 1 - cell) / shape->cells);
    int32_t wish = wished(shape, state, cell), eighth = (int32_t)(shape->sites / 8);
    return shape->kind == TIES && eighth > 0 ? wish / eighth * eighth : wish;
}

static uint8_t *put_net(uint8_t *at, const struct shape *shape, uint64_t *state, const uint32_t *widths, unsigned number)
{
    unsigned first = number % shape->cells, pins = shape->kind == ONE_CLUMP ? 1 : 1 + draw(state, 4);
    at = put(at, "NT", shape->kind == TYPICAL ? 1 + draw(state, 8) : 1, 4);
    for (unsigned i = 0, cell = first; i < pins && cell < shape->cells; i++, cell += 1 + draw(state, 3))
        at = put_pin(at, cell, draw(state, widths[cell] + 1));
    at = put(at, "FP", (uint32_t)fixed_pin(shape, state, first), 4);
    if (shape->kind != ONE_CLUMP && draw(state, 8) == 0)
        at = put(at, "FP", (uint32_t)fixed_pin(shape, state, first), 4);
    return at;
}

size_t make_row(const struct shape *shape, uint64_t *state, uint8_t *row)
{
    uint32_t widths[LUGSHEET_CELLS_MAX];
    make_widths(state, shape->cells, (uint32_t)((uint64_t)shape->sites * shape->full / 100), widths);
    uint8_t *at = put(row, "RW", shape->sites, 4);
    *at++ = (uint8_t)shape->cells;
    *at++ = (uint8_t)(shape->cells >> 8);
    *at++ = (uint8_t)shape->nets;
    *at++ = (uint8_t)(shape->nets >> 8);
    for (unsigned i = 0; i < shape->cells; i++)
        at = put(at, "CE", widths[i], 4);
    for (unsigned i = 0; i < shape->nets; i++)
        at = put_net(at, shape, state, widths, i);
    at = put(at, "EN", 0, 0);
    return (size_t)(at - row);
}

static inline uint16_t u16_at(const uint8_t *at)
{
    uint16_t value; /* little endian, as is every machine that the library is for */
    memcpy(&value, at, sizeof value);
    return value;
}

static inline uint32_t u32_at(const uint8_t *at)
{
    uint32_t value;
    memcpy(&value, at, sizeof value);
    return value;
}

/* The net whose NT record begins at `at`; answers where the next record begins. Which pins come is for chance, so what a pin changes is
 * written as choices and not as branches, which would be guessed wrongly half the time. */
static const uint8_t *read_net(const uint8_t *at, int32_t sites, struct net *net)
{
    const uint16_t fixed_mark = 'F' | 'P' << 8, movable_mark = 'M' | 'P' << 8;
    unsigned left = LUGSHEET_CELLS_MAX, right = 0;
    int32_t left_offset = 0, right_offset = 0, left_fixed = INT32_MAX, right_fixed = INT32_MIN;
    net->weight = u32_at(at + 2);
    at += 6;
    for (uint16_t mark = u16_at(at); mark == fixed_mark || mark == movable_mark; mark = u16_at(at)) {
        int movable = mark == movable_mark;
        unsigned cell = u16_at(at + 2);
        int32_t offset = (int32_t)u32_at(at + 4), fixed = (int32_t)u32_at(at + 2); /* the one that is not there is not used */
        int on_left = movable & (cell <= left), on_right = movable & (cell >= right);
        left = on_left ? cell : left;
        left_offset = on_left ? offset : left_offset;
        right = on_right ? cell : right;
        right_offset = on_right ? offset : right_offset;
        left_fixed = !movable & (fixed < left_fixed) ? fixed : left_fixed;
        right_fixed = !movable & (fixed > right_fixed) ? fixed : right_fixed;
        at += movable ? 8 : 6;
    }
    net->left = left;
    net->right = right;
    net->left_offset = left_offset;
    net->right_offset = right_offset;
    net->left_fixed = left_fixed == INT32_MAX ? sites : left_fixed;
    net->right_fixed = right_fixed == INT32_MIN ? 0 : right_fixed;
    return at;
}

void read_row(const uint8_t *bytes, struct read_row *row)
{
    row->sites = u32_at(bytes + 2);
    row->cells = u16_at(bytes + 6);
    row->nets = u16_at(bytes + 8);
    const uint8_t *at = bytes + 10;
    row->packed[0] = 0;
    for (unsigned i = 0; i < row->cells; i++, at += 6)
        row->packed[i + 1] = row->packed[i] + u32_at(at + 2);
    for (unsigned i = 0; i < row->nets; i++)
        at = read_net(at, (int32_t)row->sites, &row->net[i]);
}

void write_position(uint8_t *placement, unsigned cell, uint32_t position)
{
    memcpy(placement + 4 * cell, &position, sizeof position);
}

/* On a legal placement the leftmost pin of a net is on its leftmost cell or fixed, and likewise on the right. */
uint64_t netlength_of(const struct read_row *row, const uint8_t *placement)
{
    uint64_t netlength = 0;
    for (unsigned i = 0; i < row->nets; i++) {
        const struct net *net = &row->net[i];
        int32_t left = (int32_t)u32_at(placement + 4 * net->left) + net->left_offset;
        int32_t right = (int32_t)u32_at(placement + 4 * net->right) + net->right_offset;
        left = net->left_fixed < left ? net->left_fixed : left;
        right = net->right_fixed > right ? net->right_fixed : right;
        netlength += (uint64_t)net->weight * (uint64_t)(right - left);
    }
    return netlength;
}
