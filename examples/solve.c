/* 3*x1 + 5*x2 - 7 = 0 with x1 >= 0 and x2 >= 0, solved from C. */
#include <inttypes.h>
#include <stdio.h>

#include "plassobine.h"

enum { N = 2, M = 1, K = 2 };

/* The equations that an inequality used: bit j - 1 stands for equation j. */
static void print_used(uint64_t i, uint64_t used)
{
    printf("inequality %" PRIu64 " used equations", i);
    for (int j = 1; j <= M; j++)
        if (used >> (j - 1) & 1)
            printf(" %d", j);
    printf("\n");
}

int main(void)
{
    /* An inequality says sum + constant <= 0, so x1 >= 0 is -x1 <= 0. */
    const int64_t equations[M * (N + 1)] = {3, 5, -7};
    const int64_t inequalities[K * (N + 1)] = {-1, 0, 0, 0, -1, 0};
    int64_t substitution[N * (N + 1)], back[N * (N + 1)], reasons[N * (M + 1)];
    int64_t conflict[M + 1], tightened[K * (N + 1)];
    uint8_t marks[N];
    uint64_t used[K], outcome[PLASSOBINE_OUTCOME_LENGTH];

    uint32_t answered = plassobine_solve(
        N, M, K,
        equations, M * (N + 1), inequalities, K * (N + 1),
        substitution, N * (N + 1), marks, N, back, N * (N + 1), reasons, N * (M + 1),
        conflict, M + 1, tightened, K * (N + 1), used, K,
        outcome, PLASSOBINE_OUTCOME_LENGTH);
    if (answered != 1)
        return 1;

    printf("outcome");
    for (int at = 0; at < PLASSOBINE_OUTCOME_LENGTH; at++)
        printf(" %" PRIu64, outcome[at]);
    printf("\n");
    if (outcome[0] == PLASSOBINE_TWO_ROW_CONFLICT) {
        print_used(outcome[1], used[outcome[1] - 1]);
        print_used(outcome[2], used[outcome[2] - 1]);
    }
    return 0;
}
