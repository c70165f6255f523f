/* The inequalities: sums, used equations, tightening, and the two looks for a conflict. */
#include "plain_parts.h"

#include <string.h>

/* The n+1 sums of an inequality with the substitution put in, closed columns too. */
static bool substitute(const struct run *run, const int64_t *inequality, int64_t *restrict sums)
{
    size_t n = run->n, width = run->width;
    memset(sums, 0, n * sizeof *sums);
    sums[n] = inequality[n];
    for (size_t i = 0; i < n; i++) {
        const int64_t *line = run->substitution + i * width;
        int64_t factor = inequality[i];
        if (factor != 0)
            for (size_t c = 0; c < width; c++)
                sums[c] += factor * line[c];
    }
    bool grown = false;
    for (size_t c = 0; c < width; c++)
        grown |= outside(sums[c]);
    return !grown;
}

/* The equations in the reason of a closed column, as a set of bits. */
static uint64_t equations_of(const int64_t *reason, size_t m)
{
    uint64_t set = 0;
    for (size_t j = 0; j < m; j++)
        set |= (uint64_t)(reason[j] != 0) << j;
    return set;
}

/* Closed columns are set to zero; what they needed is told by the sets of their reasons. */
static uint64_t drop_closed(const struct run *run, const uint64_t *sets, int64_t *sums)
{
    uint64_t used = 0;
    for (size_t column = 0; column < run->n; column++)
        if (run->marks[column] == 0 && sums[column] != 0) {
            used |= sets[column];
            sums[column] = 0;
        }
    return used;
}

static void tighten(int64_t *row, size_t n)
{
    int32_t g = (int32_t)gcd_with(0, row, n);
    if (g < 2 || (int32_t)row[n] % g == 0)
        return;
    for (size_t i = 0; i < n; i++)
        row[i] = (int32_t)row[i] / g;
    /* C truncates toward zero, so that only a positive quotient has to go up by one. */
    row[n] = (int32_t)row[n] / g + (row[n] > 0);
}

size_t work_inequalities(const struct run *run, size_t k, const int64_t *inequalities, int64_t *tightened,
                         uint64_t *used)
{
    uint64_t sets[MOST_VARIABLES];
    for (size_t column = 0; column < run->n; column++)
        sets[column] = equations_of(run->reasons + column * (run->m + 1), run->m);
    for (size_t i = 0; i < k; i++) {
        int64_t *row = tightened + i * run->width;
        if (!substitute(run, inequalities + i * run->width, row))
            return i;
        used[i] = drop_closed(run, sets, row);
        tighten(row, run->n);
    }
    return k;
}

static bool no_coefficients(const int64_t *row, size_t n)
{
    for (size_t i = 0; i < n; i++)
        if (row[i] != 0)
            return false;
    return true;
}

static bool opposite(const int64_t *one, const int64_t *other, size_t n)
{
    for (size_t i = 0; i < n; i++)
        if (one[i] + other[i] != 0)
            return false;
    return true;
}

/* The lowest row without coefficients that says a positive number is not positive, or k. */
static size_t one_row_conflict(const struct run *run, size_t k, const int64_t *tightened)
{
    for (size_t i = 0; i < k; i++) {
        const int64_t *row = tightened + i * run->width;
        if (row[run->n] > 0 && no_coefficients(row, run->n))
            return i;
    }
    return k;
}

/* The lowest j > i that is opposite to i and leaves no room, or k. */
static size_t against(const struct run *run, size_t k, const int64_t *tightened, size_t i)
{
    const int64_t *row = tightened + i * run->width;
    for (size_t j = i + 1; j < k; j++) {
        const int64_t *other = tightened + j * run->width;
        if (row[run->n] + other[run->n] > 0 && opposite(row, other, run->n))
            return no_coefficients(row, run->n) ? k : j;
    }
    return k;
}

void look(const struct run *run, size_t k, const int64_t *tightened, uint64_t *outcome)
{
    size_t i = one_row_conflict(run, k, tightened);
    if (i < k) {
        outcome[0] = ONE_ROW_CONFLICT;
        outcome[1] = i + 1;
        outcome[2] = run->steps;
        return;
    }
    for (i = 0; i < k; i++) {
        size_t j = against(run, k, tightened, i);
        if (j < k) {
            outcome[0] = TWO_ROW_CONFLICT;
            outcome[1] = i + 1;
            outcome[2] = j + 1;
            outcome[3] = run->steps;
            return;
        }
    }
    outcome[0] = OPEN;
    outcome[1] = run->steps;
}
