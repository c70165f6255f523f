/* isl on a system: the set from two constraint matrices, then one of two jobs.
 *
 * isl_reduces is the work nearest to the library's: equalities removed by a whole-number change of variables, which is
 * asked for in both directions, and the inequalities over the new variables, tightened. isl_decides says whether the
 * set is empty, which is a complete decision and so more than the library does. */
#include "systems.h"

#include <isl/ctx.h>
#include <isl/mat.h>
#include <isl/options.h>
#include <isl/set.h>
#include <isl/space.h>
#include <stdlib.h>

/* isl exports this function but installs no header that declares it. */
isl_basic_set *isl_basic_set_remove_equalities(isl_basic_set *set, isl_mat **there, isl_mat **back);

static isl_ctx *context(void)
{
    static isl_ctx *ctx;
    if (ctx == NULL) {
        ctx = isl_ctx_alloc();
        isl_options_set_on_error(ctx, ISL_ON_ERROR_CONTINUE);
    }
    return ctx;
}

static isl_mat *matrix(isl_ctx *ctx, const int64_t *table, size_t rows, size_t width, long sign)
{
    isl_mat *mat = isl_mat_alloc(ctx, (unsigned)rows, (unsigned)width);
    for (size_t r = 0; r < rows; r++)
        for (size_t c = 0; c < width; c++) {
            isl_val *entry = isl_val_int_from_si(ctx, sign * table[r * width + c]);
            mat = isl_mat_set_element_val(mat, (int)r, (int)c, entry);
        }
    return mat;
}

static isl_basic_set *set_of(const struct system *system)
{
    isl_ctx *ctx = context();
    size_t width = system->n + 1;
    isl_space *space = isl_space_set_alloc(ctx, 0, (unsigned)system->n);
    isl_mat *equalities = matrix(ctx, system->equations, system->m, width, 1);
    /* isl's inequalities say >= 0. */
    isl_mat *inequalities = matrix(ctx, system->inequalities, system->k, width, -1);
    return isl_basic_set_from_constraint_matrices(space, equalities, inequalities, isl_dim_set, isl_dim_param,
                                                  isl_dim_div, isl_dim_cst);
}

bool isl_reduces(const struct system *system)
{
    isl_mat *there = NULL, *back = NULL;
    isl_basic_set *reduced = isl_basic_set_remove_equalities(set_of(system), &there, &back);
    bool empty = isl_basic_set_plain_is_empty(reduced) == isl_bool_true;
    isl_basic_set_free(reduced);
    isl_mat_free(there);
    isl_mat_free(back);
    return empty;
}

static size_t gave_up;

size_t isl_gave_up(void)
{
    return gave_up;
}

bool isl_decides(const struct system *system)
{
    isl_ctx *ctx = context();
    isl_basic_set *set = set_of(system);
    /* A bound on the work: branching can take very long on a system that is hard for it. */
    isl_ctx_set_max_operations(ctx, 2000000);
    isl_bool empty = isl_basic_set_is_empty(set);
    isl_basic_set_free(set);
    isl_ctx_reset_operations(ctx);
    isl_ctx_set_max_operations(ctx, 0);
    isl_ctx_reset_error(ctx);
    gave_up += empty == isl_bool_error;
    return empty == isl_bool_true;
}
