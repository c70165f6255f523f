/* The elimination run: parts (a) to (d) of document 01, with the substitution, the way back and the reasons. */
#include "plain_parts.h"

#include <string.h>

static bool any_outside(const int64_t *numbers, size_t count)
{
    bool found = false;
    for (size_t i = 0; i < count; i++)
        found |= outside(numbers[i]);
    return found;
}

static void divide_all(int64_t *numbers, size_t count, int32_t by)
{
    for (size_t i = 0; i < count; i++)
        numbers[i] = (int32_t)numbers[i] / by;
}

/* Multipliers and divisor divided by all they share. They are listed before that, and only get smaller by it. */
static bool lowest_terms(struct run *run, size_t row)
{
    int64_t *multipliers = run->multipliers + row * run->m;
    if (outside(run->divisors[row]) || any_outside(multipliers, run->m))
        return false;
    int32_t shared = (int32_t)gcd_with((uint32_t)run->divisors[row], multipliers, run->m);
    if (shared != 1) {
        divide_all(multipliers, run->m, shared);
        run->divisors[row] /= shared;
    }
    return true;
}

/* Part (a) for a row whose gcd is g >= 2. */
static bool divide_row(struct run *run, size_t row, int32_t g)
{
    divide_all(run->rows + row * run->width, run->width, g);
    run->divisors[row] *= g;
    return lowest_terms(run, row);
}

static size_t smallest_column(const int64_t *row, size_t n)
{
    size_t column = 0;
    uint32_t smallest = UINT32_MAX;
    for (size_t i = 0; i < n; i++) {
        /* Less one, a zero becomes the largest number of all, so that it is never taken. */
        uint32_t size = magnitude(row[i]) - 1;
        if (size < smallest) {
            smallest = size;
            column = i;
        }
    }
    return column;
}

/* The row after y_column has become y_column - sum q_i y_i - q_c; the quotient of the column itself is 0. */
static bool put_in(int64_t *restrict row, size_t width, size_t column, const int64_t *restrict quotients)
{
    int64_t factor = row[column];
    if (factor == 0)
        return true;
    bool grown = false;
    for (size_t i = 0; i < width; i++) {
        int64_t number = row[i] - factor * quotients[i];
        grown |= outside(number);
        row[i] = number;
    }
    return !grown;
}

static void find_quotients(const int64_t *restrict row, size_t width, size_t column, int64_t *restrict quotients)
{
    int64_t a = row[column];
    /* Dividing by a unit is multiplying by it, and most divisions of a run are by units. */
    if (a == 1 || a == -1)
        for (size_t i = 0; i < width; i++)
            quotients[i] = a * row[i];
    else
        for (size_t i = 0; i < width; i++)
            quotients[i] = (int32_t)row[i] / (int32_t)a;
    quotients[column] = 0;
}

/* Row k of the way back becomes row k + sum q_i row i + q_c. Only the finished sums are listed. */
static bool put_in_way_back(struct run *run, size_t column, const int64_t *restrict quotients)
{
    size_t width = run->width;
    int64_t *restrict back = run->way_back + column * width;
    for (size_t i = 0; i < run->n; i++) {
        const int64_t *other = run->way_back + i * width;
        int64_t quotient = quotients[i];
        if (quotient != 0)
            for (size_t c = 0; c < width; c++)
                back[c] += quotient * other[c];
    }
    back[run->n] += quotients[run->n];
    return !any_outside(back, width);
}

/* Part (c). */
static bool change_variable(struct run *run, size_t row, size_t column)
{
    int64_t quotients[MOST_VARIABLES + 1];
    bool within = true;
    find_quotients(run->rows + row * run->width, run->width, column, quotients);
    for (size_t h = row; h < run->m && within; h++)
        within = put_in(run->rows + h * run->width, run->width, column, quotients);
    for (size_t i = 0; i < run->n && within; i++)
        within = put_in(run->substitution + i * run->width, run->width, column, quotients);
    return within && put_in_way_back(run, column, quotients);
}

/* Row h loses its coefficient at a column closed by a reason with divisor d, and its multipliers answer for that. */
static bool correct_later_row(struct run *run, size_t h, size_t column, const int64_t *restrict reason)
{
    int64_t *restrict multipliers = run->multipliers + h * run->m;
    int64_t *place = run->rows + h * run->width + column;
    int64_t d = reason[run->m];
    int64_t e = (int64_t)gcd((uint32_t)run->divisors[h], (uint32_t)d);
    int64_t f = *place * (run->divisors[h] / e);
    if (outside(f))
        return false;
    for (size_t j = 0; j < run->m; j++)
        multipliers[j] = (d / e) * multipliers[j] - f * reason[j];
    run->divisors[h] *= d / e;
    *place = 0;
    return lowest_terms(run, h);
}

/* Part (d) for a unit. */
static bool close_column(struct run *run, size_t row, size_t column)
{
    const int64_t *multipliers = run->multipliers + row * run->m;
    int64_t *reason = run->reasons + column * (run->m + 1);
    int64_t sign = run->rows[row * run->width + column];
    for (size_t j = 0; j < run->m; j++)
        reason[j] = sign * multipliers[j];
    reason[run->m] = run->divisors[row];
    run->marks[column] = 0;
    for (size_t h = row + 1; h < run->m; h++)
        if (run->rows[h * run->width + column] != 0 && !correct_later_row(run, h, column, reason))
            return false;
    return true;
}

static enum ended work_row(struct run *run, size_t row, uint32_t *g)
{
    int64_t *numbers = run->rows + row * run->width;
    uint32_t of_coefficients = gcd_with(0, numbers, run->n);
    uint32_t of_all = gcd_with(of_coefficients, numbers + run->n, 1);
    if (of_all == 0)
        return DONE;
    if (of_all >= 2 && !divide_row(run, row, (int32_t)of_all))
        return TOO_LARGE;
    *g = of_coefficients / of_all;
    if (*g != 1)
        return CONFLICT;
    for (bool closed = false; !closed; run->steps++) {
        size_t column = smallest_column(numbers, run->n);
        closed = magnitude(numbers[column]) == 1;
        if (!change_variable(run, row, column) || (closed && !close_column(run, row, column)))
            return TOO_LARGE;
    }
    return DONE;
}

enum ended eliminate(struct run *run, size_t *row, uint32_t *g)
{
    for (*row = 0; *row < run->m; ++*row) {
        enum ended ended = work_row(run, *row, g);
        if (ended != DONE)
            return ended;
    }
    return DONE;
}
