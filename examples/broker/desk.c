/* Files on the desk. Every fault ends the program with one line; the file that stood there before is then still whole. */
#define _DEFAULT_SOURCE /* flock */
#include "desk.h"

#include <errno.h>
#include <fcntl.h>
#include <stdarg.h>
#include <stdio.h>
#include <stdlib.h>
#include <string.h>
#include <sys/file.h>
#include <sys/stat.h>
#include <unistd.h>

#define NUMBERS 5
#define SAVED_SIZE (LUGSHEET_BENCH_SIZE + 8 * NUMBERS)
#define PATH_SIZE 320

void fail(const char *form, ...)
{
    va_list arguments;
    va_start(arguments, form);
    fputs("broker: ", stderr);
    vfprintf(stderr, form, arguments);
    fputc('\n', stderr);
    va_end(arguments);
    exit(1);
}

uint64_t print_of(const uint8_t *bytes, size_t length)
{
    uint64_t print = UINT64_C(0xcbf29ce484222325); /* FNV-1a */
    for (size_t i = 0; i < length; i++)
        print = (print ^ bytes[i]) * UINT64_C(0x100000001b3);
    return print;
}

int desk_open(const char *folder)
{
    if (mkdir(folder, 0777) != 0 && errno != EEXIST)
        fail("cannot make the folder %s: %s", folder, strerror(errno));
    int desk = open(folder, O_RDONLY | O_DIRECTORY);
    if (desk < 0)
        fail("cannot open the folder %s: %s", folder, strerror(errno));
    /* Two brokers on one desk would overwrite each other's slices. The lock goes with the process, however that ends. */
    if (flock(desk, LOCK_EX | LOCK_NB) != 0)
        fail("the folder %s is in use by another broker", folder);
    return desk;
}

static void write_all(int file, const uint8_t *bytes, size_t length, const char *name)
{
    while (length > 0) {
        ssize_t written = write(file, bytes, length);
        if (written < 0 && errno == EINTR)
            continue;
        if (written < 0)
            fail("cannot write %s: %s", name, strerror(errno));
        bytes += written;
        length -= (size_t)written;
    }
}

static void replace(int desk, const char *name, const uint8_t *bytes, size_t length)
{
    char fresh[PATH_SIZE + 8];
    snprintf(fresh, sizeof fresh, "%s.new", name);
    int file = openat(desk, fresh, O_WRONLY | O_CREAT | O_TRUNC, 0666);
    if (file < 0)
        fail("cannot write %s: %s", fresh, strerror(errno));
    write_all(file, bytes, length, fresh);
    /* The bytes must be on the disk before the name points at them, and the name before the next slice counts on it. */
    if (fsync(file) != 0 || close(file) != 0)
        fail("cannot write %s: %s", fresh, strerror(errno));
    if (renameat(desk, fresh, desk, name) != 0 || fsync(desk) != 0)
        fail("cannot replace %s: %s", name, strerror(errno));
}

static void put_u64(uint8_t *bytes, uint64_t value)
{
    for (int i = 0; i < 8; i++)
        bytes[i] = (uint8_t)(value >> (8 * i));
}

static uint64_t get_u64(const uint8_t *bytes)
{
    uint64_t value = 0;
    for (int i = 7; i >= 0; i--)
        value = value << 8 | bytes[i];
    return value;
}

int desk_load(int desk, const char *project, struct saved *saved)
{
    char name[PATH_SIZE];
    uint8_t bytes[SAVED_SIZE + 1]; /* one more, to see that a file is too long */
    snprintf(name, sizeof name, "%s.saved", project);
    int file = openat(desk, name, O_RDONLY);
    if (file < 0 && errno == ENOENT)
        return 0;
    if (file < 0)
        fail("cannot read %s: %s", name, strerror(errno));
    size_t length = 0;
    ssize_t got;
    while (length < sizeof bytes && (got = read(file, bytes + length, sizeof bytes - length)) != 0) {
        if (got < 0 && errno != EINTR)
            fail("cannot read %s: %s", name, strerror(errno));
        length += got > 0 ? (size_t)got : 0;
    }
    close(file);
    if (length != SAVED_SIZE)
        fail("%s was not saved by this program: it should have %d bytes", name, SAVED_SIZE);
    const uint8_t *numbers = bytes + LUGSHEET_BENCH_SIZE;
    memcpy(saved->bench, bytes, LUGSHEET_BENCH_SIZE);
    saved->row_print = get_u64(numbers);
    saved->round = get_u64(numbers + 8);
    saved->steps = get_u64(numbers + 16);
    saved->clock = get_u64(numbers + 24);
    saved->longest_wait = get_u64(numbers + 32);
    return 1;
}

void desk_save(int desk, const char *project, const struct saved *saved)
{
    char name[PATH_SIZE];
    uint8_t bytes[SAVED_SIZE], *numbers = bytes + LUGSHEET_BENCH_SIZE;
    snprintf(name, sizeof name, "%s.saved", project);
    memcpy(bytes, saved->bench, LUGSHEET_BENCH_SIZE);
    put_u64(numbers, saved->row_print);
    put_u64(numbers + 8, saved->round);
    put_u64(numbers + 16, saved->steps);
    put_u64(numbers + 24, saved->clock);
    put_u64(numbers + 32, saved->longest_wait);
    replace(desk, name, bytes, sizeof bytes);
}

void desk_keep_placement(int desk, const char *project, const uint8_t *placement, size_t length)
{
    char name[PATH_SIZE];
    snprintf(name, sizeof name, "%s.placement", project);
    replace(desk, name, placement, length);
}
