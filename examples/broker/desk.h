/* The desk: the folder where the broker keeps what must outlive it. A file on the desk is at every moment either its old self or its new
 * self, whole: it is written under another name, brought to the disk, and then renamed. */
#ifndef DESK_H
#define DESK_H

#include "lugsheet.h"

#include <stddef.h>
#include <stdint.h>

/* Beside the bench, what the broker wants to know of a project. Saved in one file with the bench, so that the two never disagree. */
struct saved {
    uint8_t bench[LUGSHEET_BENCH_SIZE];
    uint64_t row_print;    /* of the row that the bench belongs to */
    uint64_t round;        /* in which its next slice is due */
    uint64_t steps;        /* taken by this project */
    uint64_t clock;        /* steps taken by all projects, when this one last had its turn or arrived */
    uint64_t longest_wait; /* the most steps that others took while this one waited */
};

/* Prints one line to standard error and ends the program with status 1. */
_Noreturn void fail(const char *form, ...) __attribute__((format(printf, 1, 2)));

/* Opens the folder, made if there is none, for this program alone. Returns its descriptor. */
int desk_open(const char *folder);

/* Reads what was saved of a project. Returns 0 if there is nothing yet. */
int desk_load(int desk, const char *project, struct saved *saved);

void desk_save(int desk, const char *project, const struct saved *saved);

void desk_keep_placement(int desk, const char *project, const uint8_t *placement, size_t length);

/* A number that all but surely differs for different bytes. */
uint64_t print_of(const uint8_t *bytes, size_t length);

#endif
