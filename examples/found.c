/*
 * The grader called from C: says of a circuit file, by name or on standard input, how many classes its vectors find.
 * Its status is 0 where the file was graded, 1 where it was refused, and 2 where it could not be read or nothing could be printed.
 */
#include "togyamiru.h"
#include <stdio.h>

static uint8_t file[TOGYAMIRU_MOST_BYTES + 1]; /* one byte more than the longest file tells one that is too long */
static uint64_t matrix[TOGYAMIRU_MOST_FAULTS * TOGYAMIRU_WORDS_A_FAULT];
static uint16_t classes[TOGYAMIRU_MOST_FAULTS];

int main(int count, char **arguments)
{
    uint64_t answer[TOGYAMIRU_NUMBERS];
    const char *name = count > 1 ? arguments[1] : "standard input";
    FILE *from = count > 1 ? fopen(name, "rb") : stdin;
    size_t length = from ? fread(file, 1, sizeof file, from) : 0;
    if (!from || ferror(from)) {
        fprintf(stderr, "found: cannot read %s\n", name);
        return 2;
    }
    togyamiru_grade(file, length, matrix, sizeof matrix / sizeof *matrix, classes, TOGYAMIRU_MOST_FAULTS, answer);
    if (answer[TOGYAMIRU_NUMBER]) {
        fprintf(stderr, "found: %s: %s\n", name, togyamiru_words(answer[TOGYAMIRU_NUMBER]));
        printf("refused %d at %d\n", (int)answer[TOGYAMIRU_NUMBER], (int)answer[TOGYAMIRU_PLACE]);
    } else {
        printf("found %d of %d classes\n", (int)answer[TOGYAMIRU_FOUND], (int)answer[TOGYAMIRU_CLASSES]);
    }
    return fflush(stdout) ? 2 : answer[TOGYAMIRU_NUMBER] != 0;
}
