/* What the tests in C share: a circuit file, the two that most of them try, and the count of what passed. */
#ifndef FILES_H
#define FILES_H

#include <stddef.h>
#include <stdint.h>

enum { MOST_FILE = 4096 };

extern uint8_t file[MOST_FILE];
extern size_t length;
extern int passed, failed;

void expect(int holds, const char *what);

/* Make the file: the scope paper's inverter with 6 faults; and 2,048 faults, of 128 inverters with a list of 16. */
void inverter(void);
void full(void);

/* The tests of the other files: what the numbers and the rows are; the refusals in words. */
void test_numbers(void);
void test_rows(void);
void test_words(void);

#endif
