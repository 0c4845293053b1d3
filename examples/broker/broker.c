/* A broker of rows: many students' projects, each advanced a slice at a time in turn, so that nobody waits for somebody else's long row.
 *
 *     broker [-b BUDGET] DESK [ROWS]
 *
 * DESK is the folder of saved benches and placements. The rows are all files NAME.row in the folder ROWS, or the forty of course.c. After
 * every slice the project is saved, and it is read back before its next one: kill the program at any moment, start it again with the same
 * words, and it ends in the same table and the same placements. */
#define _DEFAULT_SOURCE /* scandir */
#include "course.h"
#include "desk.h"
#include "lugsheet.h"

#include <dirent.h>
#include <errno.h>
#include <stdio.h>
#include <stdlib.h>
#include <string.h>

#define BUDGET 16       /* steps in a slice, unless -b says another number */
#define NAME_SIZE 256
#define READ_SIZE 65536 /* what follows in a longer file can't change the answer: no row that is taken is so long */

struct project {
    char name[NAME_SIZE];
    uint8_t *row;
    size_t row_length;
    size_t cells;
    uint64_t round; /* in which its next slice is due */
    int arrived;    /* something is saved of it */
    int finished;
};

struct broker {
    struct project *projects;
    size_t count;
    uint32_t budget;
    int desk;
    uint64_t clock;        /* steps taken so far, by all projects, in all lives of the program */
    uint64_t newest_round; /* of the unfinished projects */
};

static _Noreturn void refuse(const struct project *project, const char *what, uint64_t answer)
{
    static const char *const words[] = {"", "the bytes end too early", "a mark that may not stand there", "bytes follow the end",
        "a number outside its range", "a net without a pin on a cell", "the cells are wider than the row", "a buffer of another length",
        "the bench is not in form", "the run is not finished", "the placement is not legal"};
    unsigned number = LUGSHEET_NUMBER(answer);
    fail("%s: %s refused, number %u, place %u: %s", project->name, what, number, (unsigned)LUGSHEET_PLACE(answer),
         number < sizeof words / sizeof words[0] ? words[number] : "");
}

static void add_project(struct broker *broker, const char *name, const uint8_t *row, size_t row_length)
{
    broker->projects = realloc(broker->projects, (broker->count + 1) * sizeof *broker->projects);
    uint8_t *copy = malloc(row_length + 1); /* malloc(0) may give no pointer, and the library wants a valid one */
    if (broker->projects == NULL || copy == NULL)
        fail("out of memory");
    memcpy(copy, row, row_length);
    struct project *project = &broker->projects[broker->count++];
    *project = (struct project){.row = copy, .row_length = row_length};
    snprintf(project->name, sizeof project->name, "%s", name);
    uint64_t answer = lugsheet_check(project->row, project->row_length);
    if (LUGSHEET_IS_REFUSED(answer))
        refuse(project, "its row is", answer);
    project->cells = (size_t)answer;
}

static void add_course(struct broker *broker)
{
    static uint8_t row[LUGSHEET_ROW_SIZE_MAX];
    for (unsigned i = 0; i < COURSE_PROJECTS; i++) {
        char name[NAME_SIZE];
        size_t length = course_row(i, row, name, sizeof name);
        add_project(broker, name, row, length);
    }
}

static int is_row(const struct dirent *entry)
{
    size_t length = strlen(entry->d_name);
    return length > 4 && length < NAME_SIZE - 16 && strcmp(entry->d_name + length - 4, ".row") == 0;
}

static void add_file(struct broker *broker, const char *folder, const char *file_name)
{
    static uint8_t row[READ_SIZE];
    char path[4096], name[NAME_SIZE];
    if ((size_t)snprintf(path, sizeof path, "%s/%s", folder, file_name) >= sizeof path)
        fail("the path of %s is too long", file_name);
    FILE *file = fopen(path, "rb");
    size_t length = file == NULL ? 0 : fread(row, 1, sizeof row, file);
    if (file == NULL || ferror(file))
        fail("cannot read %s: %s", path, strerror(errno));
    fclose(file);
    snprintf(name, sizeof name, "%.*s", (int)(strlen(file_name) - 4), file_name);
    add_project(broker, name, row, length);
}

static void add_folder(struct broker *broker, const char *folder)
{
    struct dirent **entries;
    int count = scandir(folder, &entries, is_row, alphasort);
    if (count < 0)
        fail("cannot read the folder %s: %s", folder, strerror(errno));
    if (count == 0)
        fail("no file NAME.row in the folder %s", folder);
    for (int i = 0; i < count; i++) {
        add_file(broker, folder, entries[i]->d_name);
        free(entries[i]);
    }
    free(entries);
}

/* Reads back what is saved of the project. Returns 0 if it has just arrived. */
static int load(const struct broker *broker, const struct project *project, struct saved *saved)
{
    if (!desk_load(broker->desk, project->name, saved))
        return 0;
    if (saved->row_print != print_of(project->row, project->row_length))
        fail("%s: its row is not the one that its bench was saved with", project->name);
    return 1;
}

/* Looks at everything that was saved, before anything is written. A slice of no steps tells whether a bench is in form and finished. */
static void resume(struct broker *broker)
{
    for (size_t i = 0; i < broker->count; i++) {
        struct project *project = &broker->projects[i];
        struct saved saved;
        project->arrived = load(broker, project, &saved);
        if (!project->arrived)
            continue;
        uint64_t answer = lugsheet_slice(project->row, project->row_length, saved.bench, sizeof saved.bench, 0);
        if (LUGSHEET_IS_REFUSED(answer))
            refuse(project, "its saved bench is", answer);
        project->finished = LUGSHEET_FINISHED(answer);
        project->round = saved.round;
        if (saved.clock > broker->clock)
            broker->clock = saved.clock;
        if (!project->finished && saved.round > broker->newest_round)
            broker->newest_round = saved.round;
    }
}

/* Saves a fresh bench for each newcomer, so that its wait counts from now. It joins the newest round: a project that has been here longer
 * must not wait for a newcomer to catch up. */
static void admit(struct broker *broker)
{
    for (size_t i = 0; i < broker->count; i++) {
        struct project *project = &broker->projects[i];
        if (project->arrived)
            continue;
        struct saved saved = {.round = broker->newest_round, .clock = broker->clock};
        saved.row_print = print_of(project->row, project->row_length);
        uint64_t answer = lugsheet_fresh(saved.bench, sizeof saved.bench);
        if (LUGSHEET_IS_REFUSED(answer))
            refuse(project, "a fresh bench is", answer);
        desk_save(broker->desk, project->name, &saved);
        project->round = saved.round;
    }
}

/* Whose turn it is: the first project of the earliest round. Each is saved with the round of its next slice, so the turns go on where they
 * were when the program was killed. NULL when all are finished. */
static struct project *next(struct broker *broker)
{
    struct project *chosen = NULL;
    for (size_t i = 0; i < broker->count; i++) {
        struct project *project = &broker->projects[i];
        if (!project->finished && (chosen == NULL || project->round < chosen->round))
            chosen = project;
    }
    return chosen;
}

static void take_turn(struct broker *broker, struct project *project)
{
    struct saved saved;
    if (!load(broker, project, &saved))
        fail("%s: what was saved of it is gone", project->name);
    uint64_t wait = broker->clock - saved.clock;
    uint64_t answer = lugsheet_slice(project->row, project->row_length, saved.bench, sizeof saved.bench, broker->budget);
    if (LUGSHEET_IS_REFUSED(answer))
        refuse(project, "a slice is", answer);
    broker->clock += LUGSHEET_STEPS(answer);
    saved.steps += LUGSHEET_STEPS(answer);
    saved.clock = broker->clock;
    saved.round++;
    if (wait > saved.longest_wait)
        saved.longest_wait = wait;
    desk_save(broker->desk, project->name, &saved);
    project->round = saved.round;
    project->finished = LUGSHEET_FINISHED(answer);
}

static void report(const struct broker *broker, const struct project *project)
{
    static uint8_t placement[LUGSHEET_PLACEMENT_SIZE(LUGSHEET_CELLS_MAX)];
    size_t length = LUGSHEET_PLACEMENT_SIZE(project->cells);
    struct saved saved;
    if (!load(broker, project, &saved))
        fail("%s: what was saved of it is gone", project->name);
    uint64_t netlength =
        lugsheet_placement(project->row, project->row_length, saved.bench, sizeof saved.bench, placement, length);
    if (LUGSHEET_IS_REFUSED(netlength))
        refuse(project, "its placement is", netlength);
    desk_keep_placement(broker->desk, project->name, placement, length);
    printf("%-16s %5zu %6llu %12llu %13llu\n", project->name, project->cells, (unsigned long long)saved.steps,
           (unsigned long long)netlength, (unsigned long long)saved.longest_wait);
}

static void release(struct broker *broker)
{
    for (size_t i = 0; i < broker->count; i++)
        free(broker->projects[i].row);
    free(broker->projects);
}

static uint32_t number_of(const char *text)
{
    char *end;
    errno = 0;
    unsigned long value = strtoul(text, &end, 10);
    if (*text < '0' || *text > '9' || *end != '\0' || errno != 0 || value < 1 || value > UINT32_MAX)
        fail("the budget must be a number from 1 to %u, not %s", UINT32_MAX, text);
    return (uint32_t)value;
}

int main(int count, char **words)
{
    struct broker broker = {.budget = BUDGET};
    if (count > 2 && strcmp(words[1], "-b") == 0) {
        broker.budget = number_of(words[2]);
        count -= 2;
        words += 2;
    }
    if (count < 2 || count > 3 || words[1][0] == '-')
        fail("use: broker [-b BUDGET] DESK [ROWS]");
    if (count == 3)
        add_folder(&broker, words[2]);
    else
        add_course(&broker);
    broker.desk = desk_open(words[1]);
    resume(&broker);
    admit(&broker);
    for (struct project *project = next(&broker); project != NULL; project = next(&broker))
        take_turn(&broker, project);
    printf("%-16s %5s %6s %12s %13s\n", "project", "cells", "steps", "netlength", "longest wait");
    for (size_t i = 0; i < broker.count; i++)
        report(&broker, &broker.projects[i]);
    if (fflush(stdout) != 0)
        fail("cannot print the table: %s", strerror(errno));
    release(&broker);
    return 0;
}
