/* The stack that the library's functions use, and that the check of a type takes by itself: a call runs on a painted stack of its own, and what is no longer painted was used.
   The status is 1 where a call takes more than the header says, or the check more than it may. */
#include "inputs.h"
#include "togyamiru.h"
#include <stdio.h>
#include <string.h>

enum { STACK = 8 << 20, PAINT = 0x5C, MOST_OF_A_CHECK = 4096 };

/* crates/bench_check: the check of the type that six numbers tell; these tell one of 32 nodes, 12 labels and the most edges */
uint64_t bench_check(uint8_t h, uint8_t o, uint8_t k, uint8_t node, uint8_t label, uint8_t count);

static _Alignas(16) uint8_t stack[STACK];
static uint64_t matrix[TOGYAMIRU_WORDS_A_FAULT * TOGYAMIRU_MOST_FAULTS];
static uint16_t classes[TOGYAMIRU_MOST_FAULTS];
static uint32_t rows[TOGYAMIRU_MOST_FAULTS];
static uint64_t answer[TOGYAMIRU_ALL_NUMBERS];
static struct input input;

static void grade(void)
{
    togyamiru_grade(input.file, input.length, matrix, sizeof matrix / sizeof *matrix, classes, TOGYAMIRU_MOST_FAULTS, answer);
}

static void grade_numbers(void)
{
    togyamiru_grade_numbers(input.file, input.length, matrix, sizeof matrix / sizeof *matrix, classes, TOGYAMIRU_MOST_FAULTS, answer, TOGYAMIRU_ALL_NUMBERS);
}

static void check(void)
{
    answer[0] = bench_check(7, 0, 11, 2, 1, 255);
}

static void list_rows(void)
{
    togyamiru_rows(input.file, input.length, rows, TOGYAMIRU_MOST_FAULTS, answer);
}

/* Calls a function with the stack pointer at the end of the painted stack. */
static void call_on_stack(void (*function)(void))
{
    __asm__ volatile("movq %%rsp, %%rbx\n\t"
                     "movq %1, %%rsp\n\t"
                     "call *%0\n\t"
                     "movq %%rbx, %%rsp"
                     :
                     : "r"(function), "r"(stack + STACK)
                     : "rax", "rbx", "rcx", "rdx", "rsi", "rdi", "r8", "r9", "r10", "r11", "xmm0", "xmm1", "xmm2", "xmm3", "xmm4", "xmm5", "xmm6", "xmm7",
                       "xmm8", "xmm9", "xmm10", "xmm11", "xmm12", "xmm13", "xmm14", "xmm15", "memory", "cc");
}

/* Bytes from the end of the stack down to the lowest one that was written. */
static size_t depth(void)
{
    size_t untouched = 0;
    while (untouched < STACK && stack[untouched] == PAINT)
        untouched++;
    return STACK - untouched;
}

static size_t depth_of(void (*function)(void))
{
    memset(stack, PAINT, STACK);
    call_on_stack(function);
    return depth();
}

/* Prints what each takes, and says whether it is no more than the header says. */
static int measure(void)
{
    size_t graded = depth_of(grade), numbered = depth_of(grade_numbers), listed = depth_of(list_rows);
    printf("%-14s %8zu %8zu %8zu   refusal %2d   %s\n", input.name, graded, numbered, listed, (int)answer[TOGYAMIRU_NUMBER], input.what);
    return graded <= TOGYAMIRU_MOST_STACK && numbered <= TOGYAMIRU_MOST_STACK && listed <= TOGYAMIRU_MOST_STACK;
}

int main(void)
{
    static uint8_t long_file[TOGYAMIRU_MOST_BYTES + 1];
    grade(); /* so that the loader has bound what the library calls, which takes stack too */
    printf("stack used by togyamiru_grade, togyamiru_grade_numbers and togyamiru_rows, in bytes\n");
    input = (struct input){"long", "one byte too long, refused at once", long_file, sizeof long_file};
    int within = measure();
    input = make_judged_type();
    within &= measure();
    for (unsigned i = 0; i < INPUTS_ALONE; i++) {
        input = make_input(i);
        within &= measure();
    }
    size_t checked = depth_of(check);
    printf("and by the check of a type by itself\n%-14s %8zu   12 labels and the most edges\n", "check", checked);
    return !(within && checked < MOST_OF_A_CHECK);
}
