/* The solver: refusals 1 to 3, then the run and the inequalities, and what each result table holds at the end. */
#include "plain.h"
#include "plain_parts.h"

#include <string.h>

/* The lent tables, so that they need not be passed one by one. */
struct lent {
    size_t n, m, k;
    const int64_t *equations, *inequalities;
    int64_t *substitution, *way_back, *reasons, *conflict, *tightened;
    uint8_t *marks;
    uint64_t *used, *outcome;
};

static void refuse(uint64_t *outcome, uint64_t number, uint64_t first, uint64_t second, uint64_t third)
{
    outcome[0] = REFUSAL;
    outcome[1] = number;
    outcome[2] = first;
    outcome[3] = second;
    outcome[4] = third;
}

static void clear(const struct lent *lent)
{
    size_t n = lent->n, m = lent->m, k = lent->k;
    memset(lent->substitution, 0, n * (n + 1) * sizeof(int64_t));
    memset(lent->marks, 0, n);
    memset(lent->way_back, 0, n * (n + 1) * sizeof(int64_t));
    memset(lent->reasons, 0, n * (m + 1) * sizeof(int64_t));
    memset(lent->conflict, 0, (m + 1) * sizeof(int64_t));
    memset(lent->tightened, 0, k * (n + 1) * sizeof(int64_t));
    memset(lent->used, 0, k * sizeof(uint64_t));
}

/* Refusal 3 for one input table. */
static bool entries_within(const struct lent *lent, const int64_t *table, size_t length, uint64_t number)
{
    bool found = false;
    for (size_t at = 0; at < length; at++)
        found |= outside(table[at]);
    if (!found)
        return true;
    size_t at = 0, width = lent->n + 1;
    while (!outside(table[at]))
        at++;
    refuse(lent->outcome, 3, number, at / width + 1, at % width + 1);
    return false;
}

static void identity(int64_t *table, size_t n)
{
    memset(table, 0, n * (n + 1) * sizeof(int64_t));
    for (size_t i = 0; i < n; i++)
        table[i * (n + 1) + i] = 1;
}

static void start(struct run *run, const struct lent *lent)
{
    size_t n = lent->n, m = lent->m;
    run->n = n, run->m = m, run->width = n + 1, run->steps = 0;
    run->substitution = lent->substitution, run->way_back = lent->way_back;
    run->reasons = lent->reasons, run->marks = lent->marks;
    memcpy(run->rows, lent->equations, m * (n + 1) * sizeof(int64_t));
    memset(run->multipliers, 0, m * m * sizeof(int64_t));
    for (size_t j = 0; j < m; j++)
        run->multipliers[j * m + j] = run->divisors[j] = 1;
    identity(lent->substitution, n);
    identity(lent->way_back, n);
    memset(lent->marks, 1, n);
    memset(lent->reasons, 0, n * (m + 1) * sizeof(int64_t));
    memset(lent->conflict, 0, (m + 1) * sizeof(int64_t));
}

static void equation_conflict(const struct lent *lent, const struct run *run, size_t row, uint32_t g)
{
    clear(lent);
    memcpy(lent->conflict, run->multipliers + row * run->m, run->m * sizeof(int64_t));
    lent->conflict[run->m] = run->divisors[row] * g;
    lent->outcome[0] = EQUATION_CONFLICT;
    lent->outcome[1] = row + 1;
    lent->outcome[2] = run->steps;
}

static void solve(const struct lent *lent)
{
    struct run run;
    size_t row;
    uint32_t g;
    start(&run, lent);
    switch (eliminate(&run, &row, &g)) {
    case CONFLICT:
        equation_conflict(lent, &run, row, g);
        return;
    case TOO_LARGE:
        clear(lent);
        refuse(lent->outcome, 4, row + 1, run.steps, 0);
        return;
    case DONE:
        break;
    }
    size_t worked = work_inequalities(&run, lent->k, lent->inequalities, lent->tightened, lent->used);
    if (worked < lent->k) {
        clear(lent);
        refuse(lent->outcome, 5, worked + 1, 0, 0);
    } else {
        look(&run, lent->k, lent->tightened, lent->outcome);
    }
}

uint32_t plain_solve(size_t n, size_t m, size_t k,
                     const int64_t *equations, size_t equations_length,
                     const int64_t *inequalities, size_t inequalities_length,
                     int64_t *substitution, size_t substitution_length,
                     uint8_t *marks, size_t marks_length,
                     int64_t *way_back, size_t way_back_length,
                     int64_t *reasons, size_t reasons_length,
                     int64_t *conflict, size_t conflict_length,
                     int64_t *tightened, size_t tightened_length,
                     uint64_t *used, size_t used_length,
                     uint64_t *outcome, size_t outcome_length)
{
    struct lent lent = {n, m, k, equations, inequalities, substitution, way_back, reasons, conflict,
                        tightened, marks, used, outcome};
    size_t width = n + 1;
    if (outcome_length != 5)
        return 0;
    memset(outcome, 0, 5 * sizeof *outcome);
    if (n < 1 || n > MOST_VARIABLES || m > MOST_EQUATIONS || k > MOST_INEQUALITIES) {
        refuse(outcome, 1, 0, 0, 0);
    } else if (equations_length != m * width || inequalities_length != k * width ||
               substitution_length != n * width || marks_length != n || way_back_length != n * width ||
               reasons_length != n * (m + 1) || conflict_length != m + 1 || tightened_length != k * width ||
               used_length != k) {
        refuse(outcome, 2, 0, 0, 0);
    } else if (!entries_within(&lent, equations, m * width, 0) ||
               !entries_within(&lent, inequalities, k * width, 1)) {
        clear(&lent);
    } else {
        solve(&lent);
    }
    return 1;
}
