/* The refusals in words: each number that is given has words of its own, and no other has. */
#include "files.h"
#include "togyamiru.h"
#include <string.h>

static int given(unsigned number)
{
    return number <= TOGYAMIRU_SHORT_MATRIX || number == TOGYAMIRU_SHORT_BUFFER;
}

void test_words(void)
{
    const char *none = togyamiru_words(~(uint64_t)0);
    int all = 1;
    for (unsigned n = 0; n < 100; n++) {
        all = all && !strcmp(togyamiru_words(n), none) == !given(n);
        for (unsigned m = 0; given(n) && m < n; m++)
            all = all && strcmp(togyamiru_words(n), togyamiru_words(m));
    }
    expect(all, "words of its own for each number that is given, and for no other");
}
