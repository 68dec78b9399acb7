/* library DWV FILE: the processor time of a call of dwv_check, of a run of `DWV check`, and of a call of dwv_table with
   room for all rows, in microseconds. Each is repeated for at least two seconds. It prints these times with three
   digits or more, how many nanoseconds a value row takes over the check, and the status of each. */
#define _GNU_SOURCE
#include <fcntl.h>
#include <spawn.h>
#include <stdint.h>
#include <stdio.h>
#include <stdlib.h>
#include <sys/resource.h>
#include <sys/wait.h>
#include "dwv.h"

enum { SECONDS = 2 };

/* The processor time of this process, or of those that it waited for. */
static double used(int who) {
    struct rusage usage;
    getrusage(who, &usage);
    return usage.ru_utime.tv_sec + usage.ru_stime.tv_sec + (usage.ru_utime.tv_usec + usage.ru_stime.tv_usec) / 1e6;
}

/* The status of a run of `DWV check FILE`. */
static int run(char **argv) {
    char *words[] = {argv[1], "check", argv[2], NULL};
    posix_spawn_file_actions_t actions;
    pid_t child;
    int status;
    posix_spawn_file_actions_init(&actions);
    posix_spawn_file_actions_addopen(&actions, 1, "/dev/null", O_WRONLY, 0);
    if (posix_spawn(&child, argv[1], &actions, NULL, words, NULL) || waitpid(child, &status, 0) != child)
        exit(3);
    posix_spawn_file_actions_destroy(&actions);
    return WEXITSTATUS(status);
}

/* Prints a time of some seconds in microseconds, with three digits or more. */
static void print_time(double seconds) {
    double time = seconds * 1e6;
    printf("%.*f ", time < 10 ? 2 : time < 100 ? 1 : 0, time);
}

/* The arrays of dwv_table, and how many rows each has. */
struct table {
    struct dwv_unit *units;
    struct dwv_entry *entries;
    struct dwv_value *values;
    struct dwv_counts n;
};

/* A call of dwv_table, if `t` has arrays with room for its counts of rows. */
static enum dwv_status fill(const uint8_t *file, size_t length, struct table *t, struct dwv_verdict *v) {
    struct dwv_counts n = t->n;
    return dwv_table(file, length, t->units, n.units, t->entries, n.entries, t->values, n.values, &t->n, v);
}

/* Arrays of as many rows as the file has. Their memory was written, so that no call pays for its pages. */
static struct table table_of(const uint8_t *file, size_t length, struct dwv_verdict *v) {
    struct table t = {malloc(1), malloc(1), malloc(1), {0}};
    fill(file, length, &t, v);
    t.units = realloc(t.units, (t.n.units + 1) * sizeof *t.units);
    t.entries = realloc(t.entries, (t.n.entries + 1) * sizeof *t.entries);
    t.values = realloc(t.values, (t.n.values + 1) * sizeof *t.values);
    fill(file, length, &t, v);
    return t;
}

int main(int argc, char **argv) {
    FILE *opened = argc == 3 ? fopen(argv[2], "rb") : NULL;
    if (!opened || fseek(opened, 0, SEEK_END))
        return 3;
    size_t length = (size_t)ftell(opened);
    uint8_t *file = malloc(length + 1);
    rewind(opened);
    if (!file || fread(file, 1, length, opened) != length)
        return 3;
    struct dwv_verdict v = {0};
    struct table t = table_of(file, length, &v);
    enum dwv_status called = DWV_SOUND, filled = DWV_SOUND;
    int ran = 0;
    double calls = 0, runs = 0, fills = 0, start = used(RUSAGE_SELF);
    for (; used(RUSAGE_SELF) - start < SECONDS; calls++)
        called = dwv_check(file, length, &v);
    double in_process = (used(RUSAGE_SELF) - start) / calls;
    start = used(RUSAGE_SELF);
    for (; used(RUSAGE_SELF) - start < SECONDS; fills++)
        filled = fill(file, length, &t, &v);
    double with_rows = (used(RUSAGE_SELF) - start) / fills;
    start = used(RUSAGE_CHILDREN);
    for (; used(RUSAGE_CHILDREN) - start < SECONDS; runs++)
        ran = run(argv);
    double as_program = used(RUSAGE_CHILDREN) - start;
    print_time(in_process);
    print_time(as_program / runs);
    print_time(with_rows);
    printf("%.0f %u %d %u\n", (with_rows - in_process) / t.n.values * 1e9, (unsigned)called, ran, (unsigned)filled);
    return 0;
}
