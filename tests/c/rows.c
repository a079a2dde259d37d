/* The promises of togyamiru_rows, tried from C: exact, longer and shorter buffers, filled with a pattern before each call. */
#include "files.h"
#include "togyamiru.h"

enum { ENTRIES = TOGYAMIRU_MOST_FAULTS + 64 };

static uint32_t rows[ENTRIES];
static uint64_t answer[TOGYAMIRU_ROWS_NUMBERS];

static uint32_t row_before(size_t i)
{
    return 0xA5A50000u + (uint32_t)i;
}

/* Lists the rows of the file in so many entries. */
static void list(size_t entries)
{
    for (size_t i = 0; i < ENTRIES; i++)
        rows[i] = row_before(i);
    for (size_t i = 0; i < TOGYAMIRU_ROWS_NUMBERS; i++)
        answer[i] = 77;
    togyamiru_rows(file, length, rows, entries, answer);
}

static int answer_is(uint64_t number, uint64_t place, uint64_t faults)
{
    return answer[TOGYAMIRU_NUMBER] == number && answer[TOGYAMIRU_PLACE] == place && answer[TOGYAMIRU_ROWS_FAULTS] == faults;
}

/* Whether all entries from one on are as they were before. */
static int kept_from(size_t entry)
{
    for (size_t i = entry; i < ENTRIES; i++)
        if (rows[i] != row_before(i))
            return 0;
    return 1;
}

static int row_is(size_t row, unsigned instance, unsigned kind, unsigned first, unsigned second)
{
    uint32_t code = rows[row];
    return togyamiru_instance(code) == instance && togyamiru_kind(code) == kind && togyamiru_first(code) == first && togyamiru_second(code) == second;
}

/* The six rows of the scope paper's report. */
static int inverter_rows(void)
{
    return row_is(0, 1, 0, 0, 1) && row_is(1, 1, 0, 0, 2) && row_is(2, 1, 0, 1, 2) && row_is(3, 1, 1, 0, 0) && row_is(4, 1, 1, 1, 0) && row_is(5, 1, 1, 2, 0);
}

static int full_rows(void)
{
    for (size_t r = 0; r < TOGYAMIRU_MOST_FAULTS; r++)
        if (!row_is(r, (unsigned)(r / 16 + 1), 0, r % 16 / 8, 2))
            return 0;
    return 1;
}

static void test_refused(void)
{
    list(5);
    expect(answer_is(22, 6, 0) && kept_from(0), "rows: one entry short: 22 with the 6 faults, nothing written");
    list(0);
    expect(answer_is(22, 6, 0) && kept_from(0), "rows: no entry: 22 with the 6 faults, nothing written");
    file[length - 1] = 'x';
    list(0);
    expect(answer_is(7, 38, 0) && kept_from(0), "rows: a bad letter in the last field: 7 before 22");
    length = 0;
    list(ENTRIES);
    expect(answer_is(14, 0, 0) && kept_from(0), "rows: the empty file: 14 at 0, nothing written");
}

void test_rows(void)
{
    inverter();
    list(6);
    expect(answer_is(0, 0, 6) && inverter_rows() && kept_from(6), "rows: an exact buffer");
    list(ENTRIES);
    expect(answer_is(0, 0, 6) && inverter_rows() && kept_from(6), "rows: a longer buffer, kept behind the last row");
    test_refused();
    full();
    list(2047);
    expect(answer_is(22, 2048, 0) && kept_from(0), "rows: 2,047 entries for 2,048 faults: 22 with 2,048");
    list(2048);
    expect(answer_is(0, 0, 2048) && full_rows() && kept_from(2048), "rows: 2,048 faults in an exact buffer");
}
