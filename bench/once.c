/* Runs one solver once over one set, for a profiler that counts instructions: once FILE SET library|plain. */
#include "systems.h"

#include <stdio.h>
#include <stdlib.h>
#include <string.h>

int main(int count, char **arguments)
{
    if (count != 4) {
        fprintf(stderr, "usage: once FILE SET library|plain (sets count from 1)\n");
        return 2;
    }
    size_t sets_count, conflicts = 0;
    struct set *sets = read_sets(arguments[1], &sets_count);
    size_t number = (size_t)atoi(arguments[2]);
    if (number < 1 || number > sets_count) {
        fprintf(stderr, "once: there are %zu sets\n", sets_count);
        return 2;
    }
    const struct set *set = &sets[number - 1];
    solver *solves = strcmp(arguments[3], "library") == 0 ? library_solves : plain_solves;
    for (size_t i = 0; i < set->count; i++)
        conflicts += solves(&set->systems[i]);
    printf("%s: %zu systems, %zu conflicts\n", set->name, set->count, conflicts);
    return 0;
}
