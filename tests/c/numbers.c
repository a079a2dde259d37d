/* The promise of togyamiru_grade_numbers on lent memory: as many numbers as have room, from the front, and nothing behind them; in all else what togyamiru_grade does. */
#include "files.h"
#include "togyamiru.h"

enum { WORDS = 24, ENTRIES = 6, SPARE = 3 };

static uint64_t numbers[TOGYAMIRU_ALL_NUMBERS + SPARE];
static uint64_t matrix[2][WORDS];
static uint16_t classes[2][ENTRIES];

/* Grades the file with room for so many numbers, and by togyamiru_grade, all filled with a pattern before. */
static void grade(size_t words, size_t room, uint64_t *six)
{
    for (size_t i = 0; i < TOGYAMIRU_ALL_NUMBERS + SPARE; i++)
        numbers[i] = 770 + i;
    for (size_t i = 0; i < WORDS; i++)
        matrix[0][i] = matrix[1][i] = 0xA5A5A5A500000000u + i;
    for (size_t i = 0; i < ENTRIES; i++)
        classes[0][i] = classes[1][i] = (uint16_t)(0xC000u + i);
    togyamiru_grade(file, length, matrix[0], words, classes[0], ENTRIES, six);
    togyamiru_grade_numbers(file, length, matrix[1], words, classes[1], ENTRIES, numbers, room);
}

/* Whether the numbers are the six and then the rounds, as far as the room goes, and both buffers are what togyamiru_grade left. */
static int as_grade(size_t room, const uint64_t *six, uint64_t rounds)
{
    for (size_t i = 0; i < TOGYAMIRU_ALL_NUMBERS + SPARE; i++) {
        uint64_t meant = i < TOGYAMIRU_NUMBERS ? six[i] : rounds;
        if (numbers[i] != (i < room && i < TOGYAMIRU_ALL_NUMBERS ? meant : 770 + i))
            return 0;
    }
    for (size_t i = 0; i < WORDS; i++)
        if (matrix[0][i] != matrix[1][i])
            return 0;
    for (size_t i = 0; i < ENTRIES; i++)
        if (classes[0][i] != classes[1][i])
            return 0;
    return 1;
}

/* A NAND without faults, then an inverter with all of its six, under 11: the NAND's output is two edges from ground. */
static void nand_then_inverter(void)
{
    static const uint8_t bytes[] = {1, 0, 2, 0, 2, 2, 0, 3, 2, 2, 1, 3, 0, 3, 1, 2, 0, 3, 0, 3, 0, 2, 0, 2, 0, 3, 3, 2, 2, 3, 0, 3, 1, 2, 0, 3, 0, 3, 1, 2, 1,
                                    3, 0, 3, 2, 3, 0, 3, 0, 3, 3, 0, 1, 5, 0, 6, 2, 0, 0, 1, 0, 2, 5, 0, 4, 1, 255, 0, 1, 6, 0, 2, '1', '1'};
    for (length = 0; length < sizeof bytes; length++)
        file[length] = bytes[length];
}

void test_numbers(void)
{
    uint64_t six[TOGYAMIRU_NUMBERS];
    inverter();
    for (size_t room = 0; room <= TOGYAMIRU_ALL_NUMBERS + SPARE; room++) {
        grade(WORDS, room, six);
        expect(six[TOGYAMIRU_NUMBER] == TOGYAMIRU_NOT_REFUSED && as_grade(room, six, 1), "the inverter: as many numbers as have room, and one round");
        grade(WORDS - 1, room, six);
        expect(six[TOGYAMIRU_NUMBER] == TOGYAMIRU_SHORT_MATRIX && as_grade(room, six, 0), "one word short: the refusal, and no round");
    }
    file[length - 1] = 'X';
    file[length - 5] = 'X';
    file[length - 9] = 'X';
    grade(WORDS, TOGYAMIRU_ALL_NUMBERS, six);
    expect(six[TOGYAMIRU_NUMBER] == TOGYAMIRU_NOT_REFUSED && as_grade(TOGYAMIRU_ALL_NUMBERS, six, 0), "nothing but X: nothing is on, and no round");
    nand_then_inverter();
    grade(WORDS, TOGYAMIRU_ALL_NUMBERS, six);
    expect(six[TOGYAMIRU_FAULTS] == 6 && six[TOGYAMIRU_FOUND] == 4 && as_grade(TOGYAMIRU_ALL_NUMBERS, six, 2), "two rounds of a NAND whose faults are not listed");
}
