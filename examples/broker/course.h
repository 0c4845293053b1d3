/* The rows of a course: forty students' projects, the same on every machine and in every run. */
#ifndef COURSE_H
#define COURSE_H

#include <stddef.h>
#include <stdint.h>

#define COURSE_PROJECTS 40

/* Writes the row of the project with this number, below COURSE_PROJECTS, into LUGSHEET_ROW_SIZE_MAX bytes, and its name into name_size
 * bytes. Returns the row's length. */
size_t course_row(unsigned number, uint8_t *row, char *name, size_t name_size);

#endif
