/* The circuit files that the tests in C try, and the count of what passed. */
#include "files.h"
#include <stdio.h>

uint8_t file[MOST_FILE];
size_t length;
int passed, failed;

void expect(int holds, const char *what)
{
    if (holds) {
        passed++;
        return;
    }
    failed++;
    printf("failed: %s\n", what);
}

/* Puts one field behind those that the file has. */
static void field(uint8_t tag, size_t count, const uint8_t *body)
{
    file[length++] = tag;
    file[length++] = (uint8_t)(count / 256);
    file[length++] = (uint8_t)(count % 256);
    for (size_t i = 0; i < count; i++)
        file[length++] = body[i];
}

/* One input and the inverter of the scope paper, as far as the instances. */
static void begin(void)
{
    length = 0;
    field(1, 2, (const uint8_t[]){0, 1});
    field(2, 3, (const uint8_t[]){2, 2, 1});
    field(3, 3, (const uint8_t[]){1, 2, 0});
    field(3, 3, (const uint8_t[]){0, 2, 0});
}

/* The 42 bytes of the scope paper. */
void inverter(void)
{
    begin();
    field(5, 4, (const uint8_t[]){1, 255, 0, 1});
    field(6, 1, (const uint8_t *)"0");
    field(6, 1, (const uint8_t *)"1");
    field(6, 1, (const uint8_t *)"X");
}

/* 128 inverters of a list of 16: 8 times the bridge between ground and output, 8 times that between supply and output. Under 0 the first 8 are marked. */
void full(void)
{
    begin();
    for (int i = 0; i < 16; i++)
        field(4, 4, (const uint8_t[]){1, 0, i / 8, 2});
    for (int i = 0; i < 128; i++)
        field(5, 4, (const uint8_t[]){1, 1, 0, 1});
    field(6, 1, (const uint8_t *)"0");
}
