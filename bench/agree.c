/* Checks that both graders agree on the files that are named, or on the inputs of the bench where none is named, but for those that are left out (both.c). */
#include "both.h"
#include "inputs.h"
#include <stdio.h>
#include <unistd.h>

static int passed, failed;

static void expect(int holds, const char *name)
{
    passed += holds;
    failed += !holds;
    if (!holds)
        printf("failed: %s\n", name);
}

/* Whether a file is left out, which is then told. */
static int is_left_out(const uint8_t *file, size_t n, const char *name)
{
    const char *reason = both_leave_out(file, n);
    if (reason)
        printf("left out, %s: %s\n", reason, name);
    return reason != 0;
}

/* One byte more than the limit is enough to know that a file is too long. */
static void try_file(const char *name)
{
    static uint8_t file[TOGYAMIRU_MOST_BYTES + 1];
    size_t n = 0;
    long got = 0;
    int input = open(name, O_RDONLY);
    while (input >= 0 && n < sizeof file && (got = read(input, file + n, sizeof file - n)) > 0)
        n += got;
    close(input);
    if (!is_left_out(file, n, name))
        expect(input >= 0 && got >= 0 && both_agree_on(file, n), name);
}

/* Each input of the bench is accepted by the library and has faults. */
static void try_input(unsigned number)
{
    struct input input = make_input(number);
    size_t faults;
    int agree = both_agree(input.file, input.length, BOTH_WORDS, BOTH_ENTRIES, &faults) && both_agree_on(input.file, input.length);
    expect(faults && (is_left_out(input.file, input.length, input.name) || agree), input.name);
}

int main(int count, char **names)
{
    for (unsigned i = 0; count == 1 && i < INPUTS; i++)
        try_input(i);
    for (int i = 1; i < count; i++)
        try_file(names[i]);
    printf("%d passed, %d failed\n", passed, failed);
    return failed != 0;
}
