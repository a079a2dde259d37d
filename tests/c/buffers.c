/* The promises of togyamiru_grade on lent memory, tried from C: exact, longer and shorter buffers, filled with a pattern before each call. */
#include "files.h"
#include "togyamiru.h"
#include <stdio.h>

enum { MOST_WORDS = TOGYAMIRU_WORDS_A_FAULT * TOGYAMIRU_MOST_FAULTS, SPARE = 64 };

static uint64_t matrix[MOST_WORDS + SPARE];
static uint16_t classes[TOGYAMIRU_MOST_FAULTS + SPARE];

static uint64_t word_before(size_t i)
{
    return 0xA5A5A5A500000000u + i;
}

static uint16_t class_before(size_t i)
{
    return (uint16_t)(0xC000u + i);
}

/* Grades the file with so many words and entries lent, both filled with the pattern. */
static void grade(size_t words, size_t entries, uint64_t *answer)
{
    for (size_t i = 0; i < MOST_WORDS + SPARE; i++)
        matrix[i] = word_before(i);
    for (size_t i = 0; i < TOGYAMIRU_MOST_FAULTS + SPARE; i++)
        classes[i] = class_before(i);
    for (size_t i = 0; i < TOGYAMIRU_NUMBERS; i++)
        answer[i] = 77;
    togyamiru_grade(file, length, matrix, words, classes, entries, answer);
}

/* Whether all words and entries past these are as they were before. */
static int kept_past(size_t words, size_t entries)
{
    for (size_t i = words; i < MOST_WORDS + SPARE; i++)
        if (matrix[i] != word_before(i))
            return 0;
    for (size_t i = entries; i < TOGYAMIRU_MOST_FAULTS + SPARE; i++)
        if (classes[i] != class_before(i))
            return 0;
    return 1;
}

static int answer_is(const uint64_t *answer, uint64_t number, uint64_t place, uint64_t vectors, uint64_t faults, uint64_t count, uint64_t found)
{
    const uint64_t meant[TOGYAMIRU_NUMBERS] = {number, place, vectors, faults, count, found};
    for (size_t i = 0; i < TOGYAMIRU_NUMBERS; i++)
        if (answer[i] != meant[i])
            return 0;
    return 1;
}

static int refused(const uint64_t *answer, uint64_t number, uint64_t place)
{
    return answer_is(answer, number, place, 0, 0, 0, 0) && kept_past(0, 0);
}

/* The six rows of the scope paper's report, and the six classes. */
static int inverter_rows(void)
{
    const uint64_t rows[6] = {7, 1, 2, 2, 1, 3};
    for (size_t r = 0; r < 6; r++) {
        if (matrix[4 * r] != rows[r] || classes[r] != r + 1)
            return 0;
        if (matrix[4 * r + 1] || matrix[4 * r + 2] || matrix[4 * r + 3])
            return 0;
        for (size_t v = 1; v <= 256; v++)
            if (togyamiru_marked(matrix, r, v) != (v <= 3 && rows[r] >> (v - 1) & 1))
                return 0;
    }
    return 1;
}

/* A mark alone in the middle one of three rows is read under its vector, and under no other. */
static int each_cell(void)
{
    const uint64_t ones = ~(uint64_t)0;
    for (size_t v = 1; v <= 256; v++) {
        uint64_t words[12] = {ones, ones, ones, ones, 0, 0, 0, 0, ones, ones, ones, ones};
        words[4 + (v - 1) / 64] = (uint64_t)1 << (v - 1) % 64;
        for (size_t u = 1; u <= 256; u++)
            if (togyamiru_marked(words, 1, u) != (u == v))
                return 0;
    }
    return 1;
}

static void test_inverter(void)
{
    uint64_t answer[TOGYAMIRU_NUMBERS];
    inverter();
    expect(length == 42, "the inverter is 42 bytes");
    grade(24, 6, answer);
    expect(answer_is(answer, 0, 0, 3, 6, 6, 6), "exact buffers: the six numbers");
    expect(inverter_rows() && kept_past(24, 6), "exact buffers: rows, classes and nothing past them");
    grade(MOST_WORDS, TOGYAMIRU_MOST_FAULTS, answer);
    expect(answer_is(answer, 0, 0, 3, 6, 6, 6), "longer buffers: the six numbers");
    expect(inverter_rows() && kept_past(24, 6), "longer buffers: rows, classes and nothing past them");
    grade(23, 6, answer);
    expect(refused(answer, 15, 24), "one word short: 15 with the 24 words needed, nothing written");
    grade(24, 5, answer);
    expect(refused(answer, 22, 6), "one entry short: 22 with the 6 faults, nothing written");
    grade(23, 5, answer);
    expect(refused(answer, 15, 24), "both short: 15 before 22");
    grade(0, 0, answer);
    expect(refused(answer, 15, 24), "no buffers at all: 15");
}

/* Of each instance's 16 rows the first 8 are one class, marked under the one vector, and the others another, not marked. */
static int full_rows(void)
{
    for (size_t r = 0; r < TOGYAMIRU_MOST_FAULTS; r++) {
        if (matrix[4 * r] != (r % 16 < 8) || classes[r] != r / 8 + 1)
            return 0;
        if (matrix[4 * r + 1] || matrix[4 * r + 2] || matrix[4 * r + 3])
            return 0;
    }
    return 1;
}

static void test_full(void)
{
    uint64_t answer[TOGYAMIRU_NUMBERS];
    full();
    grade(8191, 2048, answer);
    expect(refused(answer, 15, 8192), "8,191 words for 2,048 faults: 15 with 8,192");
    grade(8192, 2047, answer);
    expect(refused(answer, 22, 2048), "2,047 entries for 2,048 faults: 22 with 2,048");
    grade(8192, 2048, answer);
    expect(answer_is(answer, 0, 0, 1, 2048, 256, 128), "2,048 faults in exact buffers: the six numbers");
    expect(full_rows() && kept_past(8192, 2048), "2,048 faults: rows, classes and nothing past them");
}

static void test_refusals(void)
{
    uint64_t answer[TOGYAMIRU_NUMBERS];
    length = 0;
    grade(24, 6, answer);
    expect(refused(answer, 14, 0), "the empty file: 14 at 0, nothing written");
    length = 1;
    file[0] = 1;
    grade(24, 6, answer);
    expect(refused(answer, 2, 0), "one byte 1: 2 at 0, nothing written");
    inverter();
    file[length - 1] = 'x';
    grade(0, 0, answer);
    expect(refused(answer, 7, 38), "a bad letter in the last field: 7 before 15 and 22");
}

int main(void)
{
    expect(each_cell(), "each cell of a row is read where its mark stands");
    test_inverter();
    test_full();
    test_refusals();
    test_numbers();
    test_rows();
    test_words();
    printf("%d passed, %d failed\n", passed, failed);
    return failed != 0;
}
