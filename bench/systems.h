/* A system as the benchmark holds it, and a solver that is timed on it. */
#ifndef SYSTEMS_H
#define SYSTEMS_H

#include <stdbool.h>
#include <stddef.h>
#include <stdint.h>

struct system {
    size_t n, m, k;
    const int64_t *equations, *inequalities;
};

struct set {
    char name[48];
    size_t count;
    struct system *systems;
};

/* Does the work on one system and says whether it found that nothing fits. Building its own form of the system from
 * the tables is part of a contestant's work. */
typedef bool solver(const struct system *system);

solver library_solves, plain_solves, isl_reduces, isl_decides, flint_solves;

/* How often isl_decides was stopped by its bound on operations. */
size_t isl_gave_up(void);

/* The sets of a file that make_systems.py wrote; the program ends if it cannot be read. */
struct set *read_sets(const char *path, size_t *count);

/* Compares the library with the plain solver on a system, table for table, and gives the outcome; the program ends if
 * they differ. */
const uint64_t *compared(const struct system *system);

#endif
