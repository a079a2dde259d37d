/* The plain C program: reads a circuit file from standard input and prints its report. */
#include "plain.h"
#include <unistd.h>

enum { MOST_READ = 32769 };

int main(void)
{
    static uint8_t file[MOST_READ];
    static char text[PLAIN_MOST_TEXT];
    size_t n = 0, written = 0;
    long got;
    while (n < MOST_READ && (got = read(0, file + n, MOST_READ - n)) > 0)
        n += got;
    size_t length = plain_report(file, n, text);
    while (written < length && (got = write(1, text + written, length - written)) > 0)
        written += got;
    return written != length;
}
