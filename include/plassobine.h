/* Plassobine: looks for whole numbers that satisfy linear equations and inequalities, and says why where there are none.
 *
 * The functions are proved, in Rattle, to answer what docs/RULES.md says on every input, whatever the numbers and the lengths,
 * and to end. They read and write nothing but the arrays that they are lent, allocate nothing, keep nothing between calls and
 * may run in several threads at once. This header is not part of the proof: nothing checks it against the source but the
 * tests that call through it. All that the functions ask of the caller is what C asks of any call:
 *
 *   - each pointer leads to as many elements as the length behind it says (a length counts elements, not bytes);
 *   - no pointer is NULL, not even one with a length of 0: then any address that is aligned for the type will do;
 *   - the arrays that are written overlap no other array of the call, and no other thread uses them meanwhile.
 *
 * The archive is for x86-64 Linux. It needs nothing but the C library (memcpy, memset).
 *
 *
 * The system
 *
 * n variables (1 to 32), m equations (0 to 32), k inequalities (0 to 64). A row has n + 1 numbers, the coefficients and then
 * the constant, each within -268435455..268435455 (W = 2^28 - 1). An equation says sum + constant = 0, an inequality says
 * sum + constant <= 0. Rows lie one behind the other. Rows and columns count from 1 in every number of an outcome.
 *
 *
 * The outcome
 *
 * Each function takes an array for the outcome, which must have 5 elements: outcome[0] is the kind, its values follow, and
 * the rest are zeros. The function answers 1. If the array has another length it answers 0 and writes nothing whatever.
 *
 *   plassobine_solve                               outcome[0]  [1]     [2]     [3]     [4]
 *     open: nothing was found against the system   0           steps   0       0       0
 *     conflict of the equations                    1           row     steps   0       0
 *     conflict of one inequality                   2           i       steps   0       0
 *     conflict of two inequalities, i < j          3           i       j       steps   0
 *     refusal                                      4           number, then its fields, as below
 *
 *   plassobine_check
 *     no: the multipliers show nothing             0           0       0       0       0
 *     yes: no whole numbers satisfy the equations  1           0       0       0       0
 *     refusal                                      4           number, then its fields, as below
 *
 *   plassobine_read
 *     a system                                     0           n       m       k       0
 *     refusal                                      4           number, then its fields, as below
 *
 * The refusals:
 *
 *   [1]  why                                       [2]         [3]     [4]     lent tables of results then
 *   1    n, m or k is out of range                 0           0       0       untouched (plassobine_read: zeros)
 *   2    a table's length is wrong                 0           0       0       untouched
 *   3    an entry beyond its limits: the first     table       row     column  zeros
 *        (table 0 equations, 1 inequalities,
 *        2 multipliers)
 *   4    a number of the run grew beyond W         row         steps   0       zeros
 *   5    a sum of an inequality is beyond W        inequality  0       0       zeros
 *   6    the text is not well formed               byte place  0       0       zeros
 *        (from 0: the length of the longest
 *        beginning that a well-formed text shares)
 *   7    the text has more than 65,536 bytes       0           0       0       zeros
 *
 * plassobine_solve and plassobine_check look for 1, then 2, then 3; 4 and 5 come from plassobine_solve alone.
 * plassobine_read looks for 2, then 7, then for 1 and 6 as it reads on; it asks no limit of the entries.
 */
#ifndef PLASSOBINE_H
#define PLASSOBINE_H

#include <stddef.h>
#include <stdint.h>

#ifdef __cplusplus
extern "C" {
#endif

/* Lengths that do not depend on the system. */
#define PLASSOBINE_OUTCOME_LENGTH 5
#define PLASSOBINE_READ_EQUATIONS_LENGTH 1056
#define PLASSOBINE_READ_INEQUALITIES_LENGTH 2112

/* Kinds of outcome. */
#define PLASSOBINE_OPEN 0
#define PLASSOBINE_EQUATION_CONFLICT 1
#define PLASSOBINE_ONE_ROW_CONFLICT 2
#define PLASSOBINE_TWO_ROW_CONFLICT 3
#define PLASSOBINE_NO 0
#define PLASSOBINE_YES 1
#define PLASSOBINE_SYSTEM 0
#define PLASSOBINE_REFUSAL 4

/* Solves a system. The two input tables are only read; the seven result tables are filled as the outcome says:
 *
 *   table          length (exactly)  holds
 *   equations      m * (n + 1)       input
 *   inequalities   k * (n + 1)       input
 *   substitution   n * (n + 1)       row i: x_i by the parameters y_1..y_n and a constant
 *   marks          n                 for each parameter 1 if it is open, 0 if it is closed, that is, means zero
 *   back           n * (n + 1)       row p: y_p by x_1..x_n and a constant
 *   reasons        n * (m + 1)       for a closed p one multiplier for each equation, then a divisor >= 1; else zeros
 *   conflict       m + 1             one multiplier for each equation, then D; plassobine_check says yes to it
 *   tightened      k * (n + 1)       the inequalities over the parameters, closed columns zero
 *   used           k                 for each inequality the set of equations used: bit j - 1 stands for equation j
 *
 *   outcome                          tables
 *   open, one-row, two-row conflict  all but conflict are filled, conflict is zeros
 *   conflict of the equations        conflict is filled, the others are zeros
 *   refusal                          see above
 *
 * Any conflict means that no whole numbers satisfy the system. With k = 0, open means that some do. With k > 0 it means that
 * some satisfy the equations and that no conflict was found in one inequality or in two opposite ones; whether some satisfy the
 * inequalities too is then not decided: x1 >= 1, x2 >= 1, x1 + x2 <= 1 is open. */
uint32_t plassobine_solve(
    size_t n, size_t m, size_t k,
    const int64_t *equations, size_t equations_length,
    const int64_t *inequalities, size_t inequalities_length,
    int64_t *substitution, size_t substitution_length,
    uint8_t *marks, size_t marks_length,
    int64_t *back, size_t back_length,
    int64_t *reasons, size_t reasons_length,
    int64_t *conflict, size_t conflict_length,
    int64_t *tightened, size_t tightened_length,
    uint64_t *used, size_t used_length,
    uint64_t *outcome, size_t outcome_length);

/* Judges multipliers, whoever made them: m of them within -W..W, then D within 0..2^56. Yes exactly when D divides each
 * combined coefficient and does not divide the combined constant (0 divides only 0). The equations are m * (n + 1) numbers,
 * the multipliers m + 1. Both are only read. */
uint32_t plassobine_check(
    size_t n, size_t m,
    const int64_t *equations, size_t equations_length,
    const int64_t *multipliers, size_t multipliers_length,
    uint64_t *outcome, size_t outcome_length);

/* Reads a PolyLib constraint matrix: bytes, which need not end in 0. The tables have exactly 1056 and 2112 elements; a
 * system's rows come to their front, m * (n + 1) and k * (n + 1) numbers, with zeros behind. The text says sum + constant
 * >= 0 for an inequality, so its row is negated, as plassobine_solve takes it. */
uint32_t plassobine_read(
    const uint8_t *text, size_t text_length,
    int64_t *equations, size_t equations_length,
    int64_t *inequalities, size_t inequalities_length,
    uint64_t *outcome, size_t outcome_length);

#ifdef __cplusplus
}
#endif

#endif
