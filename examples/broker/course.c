/* Rows written record by record, as document 01 lays them out: three that once went wrong in class, and thirty-seven made by a fixed
 * sequence of numbers. */
#include "course.h"

#include "lugsheet.h"

#include <stdio.h>

struct writer {
    uint8_t *at;
};

static void put_u16(struct writer *w, unsigned value)
{
    *w->at++ = (uint8_t)value;
    *w->at++ = (uint8_t)(value >> 8);
}

static void put_u32(struct writer *w, uint32_t value)
{
    put_u16(w, value & 0xffff);
    put_u16(w, value >> 16);
}

static void put_mark(struct writer *w, const char *mark)
{
    *w->at++ = (uint8_t)mark[0];
    *w->at++ = (uint8_t)mark[1];
}

static void put_head(struct writer *w, uint32_t width, unsigned cells, unsigned nets)
{
    put_mark(w, "RW");
    put_u32(w, width);
    put_u16(w, cells);
    put_u16(w, nets);
}

static void put_cell(struct writer *w, uint32_t width)
{
    put_mark(w, "CE");
    put_u32(w, width);
}

static void put_net(struct writer *w, uint32_t weight)
{
    put_mark(w, "NT");
    put_u32(w, weight);
}

static void put_fixed(struct writer *w, int32_t site)
{
    put_mark(w, "FP");
    put_u32(w, (uint32_t)site);
}

static void put_pin(struct writer *w, unsigned cell, uint32_t offset)
{
    put_mark(w, "MP");
    put_u16(w, cell);
    put_u32(w, offset);
}

/* One cell between two nets of equal weight: every site from 2 to 6 is equally short, and the leftmost is asked for. */
static void equal_pull(struct writer *w)
{
    put_head(w, 10, 1, 2);
    put_cell(w, 1);
    put_net(w, 1);
    put_pin(w, 0, 0);
    put_fixed(w, 2);
    put_net(w, 1);
    put_pin(w, 0, 0);
    put_fixed(w, 6);
}

/* The widest row there is: a placer that tries site by site never comes back from it. */
static void million(struct writer *w)
{
    const unsigned cells = 24;
    put_head(w, LUGSHEET_WIDTH_MAX, cells, cells);
    for (unsigned i = 0; i < cells; i++)
        put_cell(w, 30000);
    for (unsigned i = 0; i < cells; i++) {
        put_net(w, 1 + i % 3);
        put_pin(w, i, 15000);
        put_fixed(w, (int32_t)(i * i * 1700));
    }
}

/* Four cells crowd round site 40 and four round 48: each four grow into a clump, and the two clumps meet. */
static void meeting(struct writer *w)
{
    put_head(w, 100, 8, 8);
    for (unsigned i = 0; i < 8; i++)
        put_cell(w, 4);
    for (unsigned i = 0; i < 8; i++) {
        put_net(w, 1);
        put_pin(w, i, 0);
        put_fixed(w, i < 4 ? 40 : 48);
    }
}

/* The next number below limit of a fixed sequence (xorshift): what rand() gives differs from one C library to the next. */
static uint32_t draw(uint64_t *state, uint32_t limit)
{
    *state ^= *state << 13;
    *state ^= *state >> 7;
    *state ^= *state << 17;
    return (uint32_t)((*state >> 32) % limit);
}

/* A net of up to three neighbours and mostly one fixed pin not far from them: four pins at most, so that 512 nets have room. */
static void student_net(struct writer *w, uint64_t *state, const uint32_t *widths, unsigned cells, uint32_t row_width)
{
    unsigned first = draw(state, cells), pins = 1 + draw(state, 3);
    put_net(w, 1 + draw(state, 5));
    for (unsigned i = first; i < first + pins && i < cells; i++)
        put_pin(w, i, draw(state, widths[i] + 1));
    int32_t wish = (int32_t)((uint64_t)row_width * first / cells);
    if (draw(state, 5) != 0)
        put_fixed(w, wish + (int32_t)draw(state, 41) - 20);
}

static void student(struct writer *w, unsigned number)
{
    uint64_t state = UINT64_C(0x9e3779b97f4a7c15) * (number + 1);
    unsigned cells = number + 1 == COURSE_PROJECTS ? LUGSHEET_CELLS_MAX : 4 + draw(&state, 60);
    uint32_t widths[LUGSHEET_CELLS_MAX], sum = 0;
    for (unsigned i = 0; i < cells; i++)
        sum += widths[i] = 1 + draw(&state, 12);
    uint32_t row_width = sum + sum / 4;
    put_head(w, row_width, cells, 2 * cells);
    for (unsigned i = 0; i < cells; i++)
        put_cell(w, widths[i]);
    for (unsigned i = 0; i < 2 * cells; i++)
        student_net(w, &state, widths, cells, row_width);
}

size_t course_row(unsigned number, uint8_t *row, char *name, size_t name_size)
{
    static const struct {
        const char *name;
        void (*write)(struct writer *);
    } incidents[] = {{"equal-pull", equal_pull}, {"million", million}, {"meeting", meeting}};
    struct writer w = {row};
    if (number < sizeof incidents / sizeof incidents[0]) {
        snprintf(name, name_size, "%s", incidents[number].name);
        incidents[number].write(&w);
    } else {
        snprintf(name, name_size, "student-%02u", number + 1);
        student(&w, number);
    }
    put_mark(&w, "EN");
    return (size_t)(w.at - row);
}
