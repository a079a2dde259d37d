/* The plain C grader of the bench: the proved grader's algorithm without its proofs. Its calls are not thread-safe: the circuit is kept in static memory. */
#ifndef PLAIN_H
#define PLAIN_H

#include <stddef.h>
#include <stdint.h>

/* A report has a first line and at most 2,048 rows, each shorter than 300 bytes. */
#define PLAIN_MOST_TEXT (2049 * 300)

/* As togyamiru_grade of include/togyamiru.h, in all that it gives and keeps. */
void plain_grade(const uint8_t *file, size_t n, uint64_t *matrix, size_t words, uint16_t *classes, size_t entries, uint64_t answer[6]);

/* Writes the report of a file, or its refusal; answers the number of bytes written, which is at most PLAIN_MOST_TEXT. */
size_t plain_report(const uint8_t *file, size_t n, char *text);

#endif
