/* Times the proved grader beside the plain one. `bench` prints the table; `bench file NAME` writes an input to standard output. */
#include "both.h"
#include "inputs.h"
#include <stdio.h>
#include <stdlib.h>
#include <string.h>
#include <time.h>
#include <unistd.h>

/* A block is some calls, timed together; a round is a block of each grader for each part. */
enum { ROUNDS = 101, BLOCK_MICROSECONDS = 400 };

enum { READING, GRADING, WHOLE, PARTS };

static const char *const part_names[PARTS] = {"reading", "grading", "whole"};

/* Microseconds a call, and ratios, of each round. */
static double ours[PARTS][ROUNDS], plain[PARTS][ROUNDS], ratios[PARTS][ROUNDS];

/* The processor's time for this process, so that others on the machine count less. */
static double microseconds(void)
{
    struct timespec now;
    clock_gettime(CLOCK_PROCESS_CPUTIME_ID, &now);
    return now.tv_sec * 1e6 + now.tv_nsec / 1e3;
}

/* Microseconds a call. With no words lent a grader reads and then refuses by 15. */
static double time_block(grade_function *grade, const struct input *input, size_t words, unsigned calls)
{
    static uint64_t matrix[BOTH_WORDS];
    static uint16_t classes[BOTH_ENTRIES];
    uint64_t answer[TOGYAMIRU_NUMBERS];
    double begin = microseconds();
    for (unsigned i = 0; i < calls; i++)
        grade(input->file, input->length, matrix, words, classes, BOTH_ENTRIES, answer);
    return (microseconds() - begin) / calls;
}

/* How many calls of a grader make a block. */
static unsigned calls_for(grade_function *grade, const struct input *input, size_t words)
{
    unsigned calls = 1;
    while (calls * time_block(grade, input, words, calls) < BLOCK_MICROSECONDS)
        calls *= 2;
    return calls;
}

/* Blocks of both, one right after the other; in every second round the other one first. */
static void time_part(const struct input *input, grade_function *other, unsigned part, size_t words, unsigned calls, unsigned round)
{
    if (round % 2)
        plain[part][round] = time_block(other, input, words, calls);
    ours[part][round] = time_block(togyamiru_grade, input, words, calls);
    if (round % 2 == 0)
        plain[part][round] = time_block(other, input, words, calls);
}

static void time_rounds(const struct input *input, grade_function *other)
{
    unsigned reading_calls = calls_for(other, input, 0), whole_calls = calls_for(other, input, BOTH_WORDS);
    for (unsigned r = 0; r < ROUNDS; r++) {
        time_part(input, other, READING, 0, reading_calls, r);
        time_part(input, other, WHOLE, BOTH_WORDS, whole_calls, r);
        ours[GRADING][r] = ours[WHOLE][r] - ours[READING][r];
        plain[GRADING][r] = plain[WHOLE][r] - plain[READING][r];
        for (unsigned part = 0; part < PARTS; part++)
            ratios[part][r] = ours[part][r] / plain[part][r];
    }
}

static int compare(const void *a, const void *b)
{
    double x = *(const double *)a, y = *(const double *)b;
    return (x > y) - (x < y);
}

/* The value that a part of the rounds, in quarters, stays below. Sorts the rounds. */
static double quartile(double *rounds, unsigned quarters)
{
    qsort(rounds, ROUNDS, sizeof *rounds, compare);
    return rounds[(ROUNDS - 1) * quarters / 4];
}

/* A line of the table. Grading that is less than a twentieth of the whole is lost in the spread of both times: its ratio is left out. */
static void print_part(const struct input *input, unsigned part, int is_alone)
{
    double our_time = quartile(ours[part], 2), plain_time = quartile(plain[part], 2), whole_time = quartile(plain[WHOLE], 2);
    printf("%-14s %-8s ", part == READING ? input->name : "", part_names[part]);
    if (is_alone || 20 * plain_time < whole_time)
        printf("%7s   %18s", "-", "");
    else
        printf("%7.2f   %7.2f to %-7.2f", quartile(ratios[part], 2), quartile(ratios[part], 1), quartile(ratios[part], 3));
    printf(" %10.2f", our_time);
    if (is_alone)
        printf(" %10s\n", "-");
    else
        printf(" %10.2f\n", plain_time);
}

/* Whether both graders agree on the input; if so it is timed. What is left out is timed alone: the proved grader takes both turns, and no ratio is printed. */
static int measure(unsigned number)
{
    struct input input = make_input(number);
    int is_alone = both_leave_out(input.file, input.length) != 0;
    if (!is_alone && !both_agree_on(input.file, input.length)) {
        printf("the graders differ on %s\n", input.name);
        return 0;
    }
    time_rounds(&input, is_alone ? togyamiru_grade : plain_grade);
    for (unsigned part = 0; part < PARTS; part++)
        print_part(&input, part, is_alone);
    return 1;
}

static int print_table(void)
{
    int agree = 1;
    for (unsigned i = 0; i < INPUTS; i++) {
        struct input input = make_input(i);
        printf("%-14s %5zu bytes: %s\n", input.name, input.length, input.what);
    }
    printf("\n%d rounds; ratio of the proved grader's time to the plain one's: the middle, then what half of the rounds lie between\n", ROUNDS);
    printf("%-14s %-8s %7s   %-18s %10s %10s\n", "input", "part", "ratio", "spread", "proved us", "plain us");
    for (unsigned i = 0; i < INPUTS; i++)
        agree &= measure(i);
    return !agree;
}

static int write_file(const char *name)
{
    for (unsigned i = 0; i < INPUTS; i++) {
        struct input input = make_input(i);
        if (strcmp(input.name, name) == 0)
            return write(1, input.file, input.length) != (long)input.length;
    }
    return 1;
}

int main(int count, char **words)
{
    if (count == 3 && strcmp(words[1], "file") == 0)
        return write_file(words[2]);
    return print_table();
}
