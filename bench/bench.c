/* Times the solvers on each set of systems: bench FILE [ROUNDS].
 *
 * In a round each solver goes over the whole set, one solver after the other, so that what the machine does besides
 * touches them alike. A figure is the median over the rounds of the time for one system; a ratio is the median of the
 * rounds' own ratios. */
#define _POSIX_C_SOURCE 200809L
#include "systems.h"

#include <stdbool.h>
#include <stdio.h>
#include <stdlib.h>
#include <time.h>

enum { MOST_ROUNDS = 101, USUAL_ROUNDS = 11, MOST_PASSES = 4096 };
/* A pass that is shorter is done again, so that the clock's own time and grain do not count. */
static const double SHORTEST_MEASURE = 4e6;

static const struct contestant {
    const char *name;
    solver *solves;
} contestants[] = {
    {"library", library_solves},
    {"plain C", plain_solves},
#ifdef HAVE_ISL
    {"isl reduce", isl_reduces},
    {"isl decide", isl_decides},
#endif
#ifdef HAVE_FLINT
    {"FLINT", flint_solves},
#endif
};
enum { CONTESTANTS = sizeof contestants / sizeof *contestants };

/* Processor time of this thread: what other programs take of the processor does not count. */
static double nanoseconds(void)
{
    struct timespec now;
    clock_gettime(CLOCK_THREAD_CPUTIME_ID, &now);
    return 1e9 * (double)now.tv_sec + (double)now.tv_nsec;
}

static double time_passes(const struct set *set, solver *solves, size_t passes)
{
    double began = nanoseconds();
    for (size_t pass = 0; pass < passes; pass++)
        for (size_t i = 0; i < set->count; i++)
            solves(&set->systems[i]);
    return nanoseconds() - began;
}

static size_t passes_needed(const struct set *set, solver *solves)
{
    size_t passes = 1;
    while (passes < MOST_PASSES && time_passes(set, solves, passes) < SHORTEST_MEASURE)
        passes *= 2;
    return passes;
}

static int by_size(const void *one, const void *other)
{
    double a = *(const double *)one, b = *(const double *)other;
    return (a > b) - (a < b);
}

static double median(const double *figures, size_t count)
{
    double sorted[MOST_ROUNDS];
    for (size_t i = 0; i < count; i++)
        sorted[i] = figures[i];
    qsort(sorted, count, sizeof *sorted, by_size);
    return count % 2 ? sorted[count / 2] : (sorted[count / 2 - 1] + sorted[count / 2]) / 2;
}

/* A peer that answers otherwise is not doing the work it is timed on. */
static void judge_peers(const struct system *system, uint64_t kind)
{
    bool agree = true;
#ifdef HAVE_ISL
    size_t given_up = isl_gave_up();
    agree = isl_decides(system) || kind == 0 || kind == 4 || isl_gave_up() != given_up;
#endif
#ifdef HAVE_FLINT
    agree = agree && (kind == 4 || flint_solves(system) == (kind == 1));
#endif
    if (!agree) {
        fprintf(stderr, "bench: a peer says otherwise than the library\n");
        exit(1);
    }
    (void)system, (void)kind;
}

/* What the set holds by outcome, after library and plain solver have been compared on every system of it. */
static void print_outcomes(const struct set *set)
{
    size_t kinds[5] = {0};
    for (size_t i = 0; i < set->count; i++) {
        uint64_t kind = compared(&set->systems[i])[0];
        judge_peers(&set->systems[i], kind);
        kinds[kind]++;
    }
    printf("%s: %zu systems, library and plain C agree on all: %zu open, %zu equation, %zu one-row, %zu two-row "
           "conflicts, %zu refused\n",
           set->name, set->count, kinds[0], kinds[1], kinds[2], kinds[3], kinds[4]);
}

static void time_set(const struct set *set, size_t rounds)
{
    static double figures[CONTESTANTS][MOST_ROUNDS], ratios[MOST_ROUNDS];
    size_t passes[CONTESTANTS];
    for (size_t c = 0; c < CONTESTANTS; c++)
        passes[c] = passes_needed(set, contestants[c].solves);
    for (size_t round = 0; round < rounds; round++)
        for (size_t c = 0; c < CONTESTANTS; c++)
            figures[c][round] =
                time_passes(set, contestants[c].solves, passes[c]) / (double)(passes[c] * set->count);
    for (size_t c = 0; c < CONTESTANTS; c++) {
        for (size_t round = 0; round < rounds; round++)
            ratios[round] = figures[c][round] / figures[1][round];
        printf("  %-12s %12.0f ns a system  %9.2f times plain C\n", contestants[c].name, median(figures[c], rounds),
               median(ratios, rounds));
    }
    fflush(stdout);
}

int main(int count, char **arguments)
{
    size_t sets_count, rounds = count > 2 ? (size_t)atoi(arguments[2]) : USUAL_ROUNDS;
    if (count < 2 || rounds < 1 || rounds > MOST_ROUNDS) {
        fprintf(stderr, "usage: bench FILE [ROUNDS, 1 to %d]\n", MOST_ROUNDS);
        return 2;
    }
    struct set *sets = read_sets(arguments[1], &sets_count);
    for (size_t s = 0; s < sets_count; s++) {
        print_outcomes(&sets[s]);
        time_set(&sets[s], rounds);
    }
#ifdef HAVE_ISL
    printf("isl decide was stopped by its bound on operations %zu times\n", isl_gave_up());
#endif
    return 0;
}
