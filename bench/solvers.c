/* The library and the plain solver on a system, and the comparison of all that they leave. */
#include "plain.h"
#include "plassobine.h"
#include "systems.h"

#include <stdio.h>
#include <stdlib.h>
#include <string.h>

/* Room for the result tables of the largest system; marks come last so that nothing lies between two tables. */
struct tables {
    int64_t substitution[32 * 33], way_back[32 * 33], reasons[32 * 33], conflict[33], tightened[64 * 33];
    uint64_t used[64], outcome[PLASSOBINE_OUTCOME_LENGTH];
    uint8_t marks[32];
};

static struct tables of_library, of_plain;

typedef uint32_t solve(size_t n, size_t m, size_t k, const int64_t *, size_t, const int64_t *, size_t, int64_t *, size_t,
                       uint8_t *, size_t, int64_t *, size_t, int64_t *, size_t, int64_t *, size_t, int64_t *, size_t,
                       uint64_t *, size_t, uint64_t *, size_t);

static inline void run(solve *solve, const struct system *system, struct tables *tables)
{
    size_t n = system->n, m = system->m, k = system->k;
    solve(n, m, k, system->equations, m * (n + 1), system->inequalities, k * (n + 1), tables->substitution, n * (n + 1),
          tables->marks, n, tables->way_back, n * (n + 1), tables->reasons, n * (m + 1), tables->conflict, m + 1,
          tables->tightened, k * (n + 1), tables->used, k, tables->outcome, PLASSOBINE_OUTCOME_LENGTH);
}

static bool found_conflict(const struct tables *tables)
{
    return tables->outcome[0] != PLASSOBINE_OPEN && tables->outcome[0] != PLASSOBINE_REFUSAL;
}

bool library_solves(const struct system *system)
{
    run(plassobine_solve, system, &of_library);
    return found_conflict(&of_library);
}

bool plain_solves(const struct system *system)
{
    run(plain_solve, system, &of_plain);
    return found_conflict(&of_plain);
}

const uint64_t *compared(const struct system *system)
{
    /* The same bytes everywhere first: a place that one solver leaves and the other writes shows as a difference. */
    memset(&of_library, 0x5a, sizeof of_library);
    memset(&of_plain, 0x5a, sizeof of_plain);
    library_solves(system);
    plain_solves(system);
    if (memcmp(&of_library, &of_plain, sizeof of_plain) != 0) {
        fprintf(stderr, "bench: the library and the plain solver differ\n");
        exit(1);
    }
    return of_library.outcome;
}
