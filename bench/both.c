/* Both graders on one file. */
#include "both.h"
#include <string.h>

/* Longer than plain.c takes a file, and no longer than the library does. */
static int is_long(const uint8_t *file, size_t n)
{
    (void)file;
    return n > 32768 && n <= TOGYAMIRU_MOST_BYTES;
}

/* Refused by plain.c for this reason at a field with this tag. */
static int is_refused_at(const uint8_t *file, size_t n, uint64_t number, uint8_t tag)
{
    uint64_t answer[TOGYAMIRU_NUMBERS], no_word;
    uint16_t no_entry;
    plain_grade(file, n, &no_word, 0, &no_entry, 0, answer);
    return answer[TOGYAMIRU_NUMBER] == number && file[answer[TOGYAMIRU_PLACE]] == tag;
}

static int has_many_edges(const uint8_t *file, size_t n)
{
    return is_refused_at(file, n, TOGYAMIRU_TOO_MANY, 3);
}

/* Unknown to plain.c. A file that it refuses before it gets to such a field, or for a field that is cut short, is compared. */
static int has_pass(const uint8_t *file, size_t n)
{
    return is_refused_at(file, n, TOGYAMIRU_UNKNOWN_TAG, 7);
}

/*
 * plain.c keeps the format and the rules that the scope paper first had. Where the library goes on from there is said here, and nowhere else:
 * files that the two read by different rules, each with the reason why it is not compared, up to the one without a reason;
 */
static const struct {
    const char *reason;
    int (*holds)(const uint8_t *file, size_t n);
} left_out[] = {{"32,769 to 57,344 bytes", is_long}, {"more than 64 edge fields in a type", has_many_edges}, {"a field of tag 7", has_pass}, {0, 0}};

/*
 * and which numbers of an answer are by the same rule: those before the counts of classes and of found ones. plain.c keeps instances apart, the library takes what joins the same
 * two wires for one class, whichever instances list it. In one instance they do agree, and so the library counts no more than plain.c.
 */
enum { SAME_NUMBERS = TOGYAMIRU_CLASSES };

struct given {
    uint64_t answer[TOGYAMIRU_NUMBERS];
    uint64_t matrix[BOTH_WORDS];
    uint16_t classes[BOTH_ENTRIES];
};

static void fill_and_grade(grade_function *grade, const uint8_t *file, size_t n, size_t words, size_t entries, struct given *given)
{
    memset(given, 0xA5, sizeof *given);
    grade(file, n, given->matrix, words, given->classes, entries, given->answer);
}

/* Whether both gave class numbers to the same rows, and rows of one instance have one number in both or in neither. */
static int same_in_each_instance(const uint8_t *file, size_t n, const struct given *ours, const struct given *plain)
{
    static uint32_t rows[BOTH_ENTRIES];
    uint16_t plain_of[BOTH_ENTRIES + 1] = {0}, ours_of[BOTH_ENTRIES + 1] = {0};
    uint64_t told[TOGYAMIRU_ROWS_NUMBERS];
    size_t faults = ours->answer[TOGYAMIRU_FAULTS], rest = BOTH_ENTRIES - faults;
    unsigned instance = 0;
    togyamiru_rows(file, n, rows, BOTH_ENTRIES, told);
    for (size_t r = 0; r < faults; r++) {
        uint16_t a = ours->classes[r], b = plain->classes[r];
        if (togyamiru_instance(rows[r]) != instance)
            memset(plain_of, 0, sizeof plain_of);
        instance = togyamiru_instance(rows[r]);
        if (a == 0 || a > faults || b == 0 || b > faults || (plain_of[a] && plain_of[a] != b) || (ours_of[b] && ours_of[b] != a))
            return 0;
        plain_of[a] = b;
        ours_of[b] = a;
    }
    return memcmp(ours->classes + faults, plain->classes + faults, rest * sizeof *ours->classes) == 0 &&
           ours->answer[TOGYAMIRU_CLASSES] <= plain->answer[TOGYAMIRU_CLASSES] && ours->answer[TOGYAMIRU_FOUND] <= plain->answer[TOGYAMIRU_FOUND];
}

static int same(const uint8_t *file, size_t n, const struct given *ours, const struct given *plain)
{
    return memcmp(ours->answer, plain->answer, SAME_NUMBERS * sizeof *ours->answer) == 0 && memcmp(ours->matrix, plain->matrix, sizeof ours->matrix) == 0 &&
           same_in_each_instance(file, n, ours, plain);
}

const char *both_leave_out(const uint8_t *file, size_t n)
{
    size_t i = 0;
    while (left_out[i].reason && !left_out[i].holds(file, n))
        i++;
    return left_out[i].reason;
}

int both_agree(const uint8_t *file, size_t n, size_t words, size_t entries, size_t *faults)
{
    static struct given ours, plain;
    fill_and_grade(togyamiru_grade, file, n, words, entries, &ours);
    fill_and_grade(plain_grade, file, n, words, entries, &plain);
    *faults = ours.answer[TOGYAMIRU_FAULTS];
    return same(file, n, &ours, &plain);
}

int both_agree_on(const uint8_t *file, size_t n)
{
    size_t faults, ignored;
    if (!both_agree(file, n, BOTH_WORDS, BOTH_ENTRIES, &faults))
        return 0;
    if (faults == 0)
        return 1;
    size_t words = TOGYAMIRU_WORDS_A_FAULT * faults;
    return both_agree(file, n, words, faults, &ignored) && both_agree(file, n, words - 1, faults, &ignored) &&
           both_agree(file, n, words, faults - 1, &ignored) && both_agree(file, n, 0, 0, &ignored);
}
