/* What the three files of the plain solver share. */
#ifndef PLAIN_PARTS_H
#define PLAIN_PARTS_H

#include <stdbool.h>
#include <stddef.h>
#include <stdint.h>

/* Document 01's W. */
#define LIMIT INT64_C(268435455)

enum { MOST_VARIABLES = 32, MOST_EQUATIONS = 32, MOST_INEQUALITIES = 64 };

/* The first of an outcome's five numbers. */
enum { OPEN, EQUATION_CONFLICT, ONE_ROW_CONFLICT, TWO_ROW_CONFLICT, REFUSAL };

/* What the elimination holds between two steps. The result tables are worked in where the caller keeps them. */
struct run {
    size_t n, m, width;
    uint64_t steps;
    int64_t *substitution, *way_back, *reasons;
    uint8_t *marks;
    int64_t rows[MOST_EQUATIONS * (MOST_VARIABLES + 1)];
    int64_t multipliers[MOST_EQUATIONS * MOST_EQUATIONS];
    int64_t divisors[MOST_EQUATIONS];
};

/* How the work on a row, or on all of them, ended. */
enum ended { DONE, CONFLICT, TOO_LARGE };

static inline bool outside(int64_t number)
{
    return (uint64_t)(number + LIMIT) > (uint64_t)(2 * LIMIT);
}

/* Only numbers that may stand are asked for; they are short, and short numbers divide faster. */
static inline uint32_t magnitude(int64_t number)
{
    return (uint32_t)(number < 0 ? -number : number);
}

static inline uint32_t gcd(uint32_t a, uint32_t b)
{
    while (b != 0) {
        uint32_t rest = a % b;
        a = b;
        b = rest;
    }
    return a;
}

/* The gcd of g and the numbers; a 1 can only stay 1, so it ends the loop. */
static inline uint32_t gcd_with(uint32_t g, const int64_t *numbers, size_t count)
{
    for (size_t i = 0; i < count && g != 1; i++)
        if (numbers[i] != 0)
            g = gcd(magnitude(numbers[i]), g);
    return g;
}

/* All rows in order. Leaves the row at which the work ended in *row, counted from 0, and a conflict's g in *g. */
enum ended eliminate(struct run *run, size_t *row, uint32_t *g);

/* All inequalities. Gives k, or the first whose sums grow past W, counted from 0. */
size_t work_inequalities(const struct run *run, size_t k, const int64_t *inequalities, int64_t *tightened,
                         uint64_t *used);

/* The two looks for a conflict between tightened rows, and open if there is none. */
void look(const struct run *run, size_t k, const int64_t *tightened, uint64_t *outcome);

#endif
