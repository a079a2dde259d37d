/* The inputs of the bench: circuit files made in memory, the same on every run. */
#ifndef INPUTS_H
#define INPUTS_H

#include <stddef.h>
#include <stdint.h>

enum { INPUT_MOST_BYTES = 57344 };

struct input {
    const char *name;
    const char *what;
    const uint8_t *file;
    size_t length;
};

/* How many inputs there are. Of these the first `INPUTS_ALONE` are measured by themselves, the others in rising order to show growth. */
enum { INPUTS_ALONE = 7, INPUTS = 23 };

/* Makes the input with a number from 0 to INPUTS - 1. It stays until the next is made. */
struct input make_input(unsigned number);

/* Makes a file that is refused right after its one type, of 12 labels and 256 edges, has been judged. */
struct input make_judged_type(void);

#endif
