/* Both graders on one file: buffers filled with a pattern, and the comparison of all that they give and keep by the same rules. */
#ifndef BOTH_H
#define BOTH_H

#include "plain.h"
#include "togyamiru.h"

/* Either grader. */
typedef void grade_function(const uint8_t *, size_t, uint64_t *, size_t, uint16_t *, size_t, uint64_t *);

enum { BOTH_WORDS = TOGYAMIRU_WORDS_A_FAULT * TOGYAMIRU_MOST_FAULTS, BOTH_ENTRIES = TOGYAMIRU_MOST_FAULTS };

/* Why a file is not compared, since the library reads it by a later rule than plain.c; null where it is. */
const char *both_leave_out(const uint8_t *file, size_t n);

/* Whether both give the same numbers and leave the same buffers, of so many words and entries lent, as far as they go by the same rules. At `faults` is put how many faults were graded. */
int both_agree(const uint8_t *file, size_t n, size_t words, size_t entries, size_t *faults);

/* The same for long enough, exact and too short buffers of the file. */
int both_agree_on(const uint8_t *file, size_t n);

#endif
