/* Reads the file of systems. The numbers are taken from one block, which stays for the whole run. */
#include "systems.h"

#include <stdio.h>
#include <stdlib.h>
#include <string.h>

struct cursor {
    const int64_t *next, *end;
};

static _Noreturn void stop(const char *why, const char *path)
{
    fprintf(stderr, "bench: %s: %s\n", path, why);
    exit(2);
}

static const int64_t *take(struct cursor *cursor, size_t count)
{
    const int64_t *start = cursor->next;
    if ((size_t)(cursor->end - start) < count)
        stop("the file is too short", "systems");
    cursor->next += count;
    return start;
}

static void *room(size_t count, size_t size)
{
    void *block = calloc(count, size);
    if (block == NULL)
        stop("no memory", "systems");
    return block;
}

static struct cursor read_file(const char *path)
{
    FILE *file = fopen(path, "rb");
    if (file == NULL || fseek(file, 0, SEEK_END) != 0)
        stop("cannot be opened", path);
    size_t numbers = (size_t)ftell(file) / sizeof(int64_t);
    int64_t *block = room(numbers, sizeof(int64_t));
    rewind(file);
    if (fread(block, sizeof(int64_t), numbers, file) != numbers)
        stop("cannot be read", path);
    fclose(file);
    return (struct cursor){block, block + numbers};
}

static void read_system(struct cursor *cursor, struct system *system)
{
    const int64_t *counts = take(cursor, 3);
    system->n = (size_t)counts[0];
    system->m = (size_t)counts[1];
    system->k = (size_t)counts[2];
    system->equations = take(cursor, system->m * (system->n + 1));
    system->inequalities = take(cursor, system->k * (system->n + 1));
}

struct set *read_sets(const char *path, size_t *count)
{
    struct cursor cursor = read_file(path);
    *count = (size_t)*take(&cursor, 1);
    struct set *sets = room(*count, sizeof *sets);
    for (size_t s = 0; s < *count; s++) {
        memcpy(sets[s].name, take(&cursor, 6), sizeof sets[s].name);
        sets[s].count = (size_t)*take(&cursor, 1);
        sets[s].systems = room(sets[s].count, sizeof(struct system));
        for (size_t i = 0; i < sets[s].count; i++)
            read_system(&cursor, &sets[s].systems[i]);
    }
    return sets;
}
