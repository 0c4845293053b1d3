/* The clumping steps without a proof, as quick as we could write them.
 *
 * The slope begins at minus the sum of the negative changes, and every change, of either sign, raises it by its weight. So r is where the
 * weights passed first exceed that sum. Each clump keeps the changes that it has passed in one pairing heap, the largest on top, and those
 * ahead in another, the smallest on top: a join melds each with its like, and then few changes have to go from one to the other.
 *
 * A change is kept less the packed place of its cell: the cells of one clump then agree on coordinates, and a join moves none of them. It
 * is one number, coordinate above weight, as both fit in 32 bits. */
#include "benchmarks.h"

#define COORDINATE_LEAST (-2000000) /* a fixed pin at -1,000,000 less an offset and a packed place, which are within the row together */
#define WEIGHT_BITS 10
#define PASSED UINT32_MAX /* the order of a heap: changes are compared after this is put on them bit by bit, so it turns the order round */
#define AHEAD 0u

struct node { /* of a heap; 0 is none */
    uint32_t change;
    uint16_t child, sibling;
};

struct clump {
    unsigned first, last; /* cells first up to last */
    unsigned passed, ahead;
    uint32_t passed_weight;
    uint32_t negative; /* sum of the weights of its negative changes */
    int32_t edge;
};

static struct read_row row;
static struct node nodes[2 * LUGSHEET_NETS_MAX + 1];
static struct clump cells[LUGSHEET_CELLS_MAX], clumps[LUGSHEET_CELLS_MAX];

static inline uint32_t weight_of(unsigned node)
{
    return nodes[node].change & ((1u << WEIGHT_BITS) - 1);
}

static inline int32_t coordinate_of(unsigned node)
{
    return (int32_t)(nodes[node].change >> WEIGHT_BITS) + COORDINATE_LEAST;
}

/* Of two heaps that are not empty. */
static inline unsigned meld_two(unsigned one, unsigned other, uint32_t order)
{
    int below = (nodes[one].change ^ order) < (nodes[other].change ^ order);
    unsigned top = below ? one : other, under = below ? other : one;
    nodes[under].sibling = nodes[top].child;
    nodes[top].child = (uint16_t)under;
    return top;
}

static inline unsigned meld(unsigned one, unsigned other, uint32_t order)
{
    return one == 0 ? other : other == 0 ? one : meld_two(one, other, order);
}

/* The heap without its top: its children melded in pairs, and the pairs from the last to the first. */
static inline unsigned without_top(unsigned heap, uint32_t order)
{
    unsigned pairs = 0, next = nodes[heap].child, all;
    while (next != 0 && nodes[next].sibling != 0) {
        unsigned one = next, other = nodes[one].sibling;
        next = nodes[other].sibling;
        unsigned pair = meld_two(one, other, order);
        nodes[pair].sibling = (uint16_t)pairs;
        pairs = pair;
    }
    for (all = next; pairs != 0;) {
        unsigned pair = pairs;
        pairs = nodes[pair].sibling;
        all = all == 0 ? pair : meld_two(all, pair, order);
    }
    return all;
}

static inline void put_change(unsigned node, unsigned cell, int32_t coordinate, uint32_t weight)
{
    nodes[node] = (struct node){(uint32_t)(coordinate - (int32_t)row.packed[cell] - COORDINATE_LEAST) << WEIGHT_BITS | weight, 0, 0};
    cells[cell].ahead = meld(cells[cell].ahead, node, AHEAD);
}

/* Each cell as a clump, with all its changes ahead. */
static void make_cells(void)
{
    for (unsigned i = 0; i < row.cells; i++)
        cells[i] = (struct clump){.first = i, .last = i + 1};
    for (unsigned i = 0; i < row.nets; i++) {
        const struct net *net = &row.net[i];
        put_change(2 * i + 1, net->left, net->left_fixed - net->left_offset, net->weight);
        put_change(2 * i + 2, net->right, net->right_fixed - net->right_offset, net->weight);
        cells[net->left].negative += net->weight;
    }
}

/* Changes go from one heap to the other until each that is passed lies before each that is ahead, and the next one would exceed the sum. No
 * change goes in vain. All that lie before the first one ahead are passed: so if it fits in the sum, with some that lie beyond it passed as
 * well, it will stay passed. And if it doesn't fit, none that lies beyond it can stay passed. */
static void pass(struct clump *clump)
{
    while (clump->ahead != 0) {
        unsigned on = clump->ahead, back = clump->passed;
        if (clump->passed_weight + weight_of(on) <= clump->negative) {
            clump->passed_weight += weight_of(on);
            clump->ahead = without_top(on, AHEAD);
            nodes[on].child = 0;
            clump->passed = meld(back, on, PASSED);
        } else if (back != 0 && nodes[back].change > nodes[on].change) {
            clump->passed_weight -= weight_of(back);
            clump->passed = without_top(back, PASSED);
            nodes[back].child = 0;
            clump->ahead = meld(on, back, AHEAD);
        } else {
            return;
        }
    }
}

/* The left clump goes on as the two together. */
static void join(struct clump *left, const struct clump *right)
{
    left->last = right->last;
    left->negative += right->negative;
    left->passed_weight += right->passed_weight;
    left->passed = meld(left->passed, right->passed, PASSED);
    left->ahead = meld(left->ahead, right->ahead, AHEAD);
}

static inline int32_t clipped(int32_t coordinate, int32_t limit)
{
    return coordinate < 0 ? 0 : coordinate > limit ? limit : coordinate;
}

/* Settles the clump after the sites that are taken, or answers 0 if it has to be joined first. */
static int settle(struct clump *clump, int32_t end)
{
    int32_t packed = (int32_t)row.packed[clump->first];
    int32_t limit = (int32_t)row.sites - ((int32_t)row.packed[clump->last] - packed);
    int32_t right = clump->ahead != 0 ? clipped(coordinate_of(clump->ahead) + packed, limit) : limit;
    if (end > right)
        return 0;
    int32_t left = right;
    if (clump->passed_weight == clump->negative) /* a flat interval: it begins at the change before */
        left = clump->passed != 0 ? clipped(coordinate_of(clump->passed) + packed, limit) : 0;
    clump->edge = end > left ? end : left;
    return 1;
}

static inline int32_t end_of(const struct clump *clump)
{
    return clump->edge + (int32_t)(row.packed[clump->last] - row.packed[clump->first]);
}

uint64_t clumping(const uint8_t *bytes, uint8_t *placement)
{
    read_row(bytes, &row);
    make_cells();
    unsigned count = 0;
    for (unsigned i = 0; i < row.cells; i++) {
        struct clump *hand = &clumps[count++];
        *hand = cells[i];
        pass(hand);
        while (!settle(hand, count > 1 ? end_of(hand - 1) : 0)) {
            join(hand - 1, hand);
            count--;
            pass(--hand);
        }
    }
    for (const struct clump *clump = clumps; clump < clumps + count; clump++)
        for (unsigned i = clump->first; i < clump->last; i++)
            write_position(placement, i, (uint32_t)clump->edge + row.packed[i] - row.packed[clump->first]);
    return netlength_of(&row, placement);
}
