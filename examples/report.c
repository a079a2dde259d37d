/*
 * The whole report from C of the circuit file on standard input, in buffers of just the size that the file needs: each row by its names, its class and its marks.
 * Status as that of examples/found.c.
 */
#include "togyamiru.h"
#include <stdio.h>
#include <stdlib.h>

static uint8_t file[TOGYAMIRU_MOST_BYTES + 1];

/* A row's line: instance, n for two nodes or i for a node and a label, both ends, class, a digit for each vector, and how many marks and the first. */
static void print_row(uint32_t code, unsigned class_number, const uint64_t *matrix, size_t row, size_t vectors)
{
    unsigned marks = 0;
    size_t first = 0;
    printf("%u %c %u %u %u ", togyamiru_instance(code), togyamiru_kind(code) ? 'i' : 'n', togyamiru_first(code), togyamiru_second(code), class_number);
    for (size_t v = 1; v <= vectors; v++) {
        int marked = togyamiru_marked(matrix, row, v);
        printf("%d", marked);
        marks += (unsigned)marked;
        if (marked && !first)
            first = v;
    }
    printf(" %u %u\n", marks, (unsigned)first);
}

/* Prints the report of a file with so many faults; 2 where there is no memory. */
static int report(size_t length, size_t faults)
{
    uint64_t answer[TOGYAMIRU_ALL_NUMBERS], about_rows[TOGYAMIRU_ROWS_NUMBERS];
    /* one more of each, since no pointer may be null, also where there are no faults */
    uint64_t *matrix = malloc((faults + 1) * TOGYAMIRU_WORDS_A_FAULT * sizeof *matrix);
    uint16_t *classes = malloc((faults + 1) * sizeof *classes);
    uint32_t *rows = malloc((faults + 1) * sizeof *rows);
    if (matrix && classes && rows) {
        togyamiru_grade_numbers(file, length, matrix, faults * TOGYAMIRU_WORDS_A_FAULT, classes, faults, answer, TOGYAMIRU_ALL_NUMBERS);
        togyamiru_rows(file, length, rows, faults, about_rows);
        printf("vectors %u faults %u classes %u found %u\n", (unsigned)answer[TOGYAMIRU_VECTORS], (unsigned)answer[TOGYAMIRU_FAULTS],
               (unsigned)answer[TOGYAMIRU_CLASSES], (unsigned)answer[TOGYAMIRU_FOUND]);
        for (size_t r = 0; r < about_rows[TOGYAMIRU_ROWS_FAULTS]; r++)
            print_row(rows[r], classes[r], matrix, r, answer[TOGYAMIRU_VECTORS]);
        printf("rounds %u\n", (unsigned)answer[TOGYAMIRU_ROUNDS]);
    }
    int status = matrix && classes && rows ? 0 : 2;
    free(matrix);
    free(classes);
    free(rows);
    return status;
}

int main(void)
{
    uint64_t answer[TOGYAMIRU_NUMBERS], no_word;
    uint16_t no_entry;
    int status = 1;
    size_t length = fread(file, 1, sizeof file, stdin);
    if (ferror(stdin)) {
        fprintf(stderr, "report: cannot read standard input\n");
        return 2;
    }
    /* nothing is lent, so that the answer says what is needed; a file without faults needs nothing, and is graded */
    togyamiru_grade(file, length, &no_word, 0, &no_entry, 0, answer);
    if (answer[TOGYAMIRU_NUMBER] == TOGYAMIRU_SHORT_MATRIX || answer[TOGYAMIRU_NUMBER] == TOGYAMIRU_NOT_REFUSED)
        status = report(length, answer[TOGYAMIRU_PLACE] / TOGYAMIRU_WORDS_A_FAULT);
    else
        printf("refused %u at %u\n", (unsigned)answer[TOGYAMIRU_NUMBER], (unsigned)answer[TOGYAMIRU_PLACE]);
    return fflush(stdout) || ferror(stdout) ? 2 : status;
}
