/* FLINT on a system: the Hermite form of the equations with its transform, their solution by going down the form, and
 * the inequalities over the new variables, tightened. FLINT has no call that does all of it. */
#include "systems.h"

#include <flint/flint.h>
#include <flint/fmpz.h>
#include <flint/fmpz_mat.h>

/* Row c of the matrix is column c of the table, so that row operations change the variables. */
static void transposed(fmpz_mat_t matrix, const int64_t *table, size_t rows, size_t n)
{
    for (size_t r = 0; r < rows; r++)
        for (size_t c = 0; c < n; c++)
            fmpz_set_si(fmpz_mat_entry(matrix, c, r), table[r * (n + 1) + c]);
}

/* The form's rows with their pivots going right give one new variable after the other; false for a conflict. */
static bool go_down(fmpz_mat_t values, const fmpz_mat_t form, const struct system *system)
{
    size_t pivot = 0;
    fmpz_t rest, left;
    fmpz_init(rest);
    fmpz_init(left);
    bool solved = true;
    for (size_t j = 0; j < system->m && solved; j++) {
        fmpz_set_si(rest, -system->equations[j * (system->n + 1) + system->n]);
        for (size_t p = 0; p < pivot; p++)
            fmpz_submul(rest, fmpz_mat_entry(form, p, j), fmpz_mat_entry(values, 0, p));
        if (pivot < system->n && !fmpz_is_zero(fmpz_mat_entry(form, pivot, j))) {
            fmpz_tdiv_qr(fmpz_mat_entry(values, 0, pivot), left, rest, fmpz_mat_entry(form, pivot, j));
            solved = fmpz_is_zero(left);
            pivot++;
        } else {
            solved = fmpz_is_zero(rest);
        }
    }
    fmpz_clear(rest);
    fmpz_clear(left);
    return solved;
}

/* The row over the variables that the equations leave free is divided by its gcd, the constant rounded up. */
static void tighten(fmpz_mat_t rows, const fmpz_t constant, slong row, slong first)
{
    fmpz_t g, rounded;
    fmpz_init(g);
    fmpz_init(rounded);
    for (slong c = first; c < fmpz_mat_ncols(rows) && !fmpz_is_one(g); c++)
        fmpz_gcd(g, g, fmpz_mat_entry(rows, row, c));
    if (!fmpz_is_zero(g) && !fmpz_is_one(g)) {
        for (slong c = first; c < fmpz_mat_ncols(rows); c++)
            fmpz_divexact(fmpz_mat_entry(rows, row, c), fmpz_mat_entry(rows, row, c), g);
        fmpz_cdiv_q(rounded, constant, g);
    }
    fmpz_clear(g);
    fmpz_clear(rounded);
}

static void put_in_inequalities(const struct system *system, const fmpz_mat_t transform, const fmpz_mat_t values,
                                slong rank)
{
    fmpz_mat_t columns, rows, sums;
    slong n = (slong)system->n, k = (slong)system->k;
    fmpz_t constant;
    fmpz_mat_init(columns, n, k);
    fmpz_mat_init(rows, n, k);
    fmpz_mat_init(sums, k, n);
    fmpz_init(constant);
    transposed(columns, system->inequalities, system->k, system->n);
    fmpz_mat_mul(rows, transform, columns);
    fmpz_mat_transpose(sums, rows);
    for (slong i = 0; i < k; i++) {
        fmpz_set_si(constant, system->inequalities[i * (n + 1) + n]);
        for (slong p = 0; p < rank; p++)
            fmpz_addmul(constant, fmpz_mat_entry(sums, i, p), fmpz_mat_entry(values, 0, p));
        tighten(sums, constant, i, rank);
    }
    fmpz_clear(constant);
    fmpz_mat_clear(columns);
    fmpz_mat_clear(rows);
    fmpz_mat_clear(sums);
}

static slong rank_of(const fmpz_mat_t form)
{
    slong rank = 0;
    while (rank < fmpz_mat_nrows(form) && !fmpz_mat_is_zero_row(form, rank))
        rank++;
    return rank;
}

bool flint_solves(const struct system *system)
{
    fmpz_mat_t columns, form, transform, values;
    slong n = (slong)system->n, m = (slong)system->m;
    fmpz_mat_init(columns, n, m);
    fmpz_mat_init(form, n, m);
    fmpz_mat_init(transform, n, n);
    fmpz_mat_init(values, 1, n);
    transposed(columns, system->equations, system->m, system->n);
    if (m == 0)
        fmpz_mat_one(transform);
    else
        fmpz_mat_hnf_transform(form, transform, columns);
    bool solved = go_down(values, form, system);
    if (solved)
        put_in_inequalities(system, transform, values, rank_of(form));
    fmpz_mat_clear(columns);
    fmpz_mat_clear(form);
    fmpz_mat_clear(transform);
    fmpz_mat_clear(values);
    return !solved;
}
