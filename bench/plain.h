/* Document 01's solver written plainly in C, without proof: what the library's speed is held against. */
#ifndef PLAIN_H
#define PLAIN_H

#include <stddef.h>
#include <stdint.h>

/* The same shape as plassobine_solve: each table is a pointer and a length, the outcome is five numbers. */
uint32_t plain_solve(size_t n, size_t m, size_t k,
                     const int64_t *equations, size_t equations_length,
                     const int64_t *inequalities, size_t inequalities_length,
                     int64_t *substitution, size_t substitution_length,
                     uint8_t *marks, size_t marks_length,
                     int64_t *way_back, size_t way_back_length,
                     int64_t *reasons, size_t reasons_length,
                     int64_t *conflict, size_t conflict_length,
                     int64_t *tightened, size_t tightened_length,
                     uint64_t *used, size_t used_length,
                     uint64_t *outcome, size_t outcome_length);

#endif
