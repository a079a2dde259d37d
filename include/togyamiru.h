/*
 * The grader from C and C++. Link target/staticlib/libtogyamiru.a, which `.ci/build togyamiru_c` proves and writes for x86-64; of the C library it needs memcpy and
 * memset alone.
 *
 * The functions are thread-safe: a call touches what it is lent and its own stack, and nothing else. There is no heap, no static data, no input or output.
 * A call takes at most 63,320 bytes of stack, whatever the file holds, as measured by bench/stack.c; TOGYAMIRU_MOST_STACK is enough.
 *
 * What a caller owes: each pointer is not null and is aligned for its type, also where the length is 0; it points to that many elements, which
 * nothing else reads or writes during the call; no two of the buffers and the answer overlap, and none overlaps the file. Nothing checks that.
 */
#ifndef TOGYAMIRU_H
#define TOGYAMIRU_H

#include <stddef.h>
#include <stdint.h>

#ifdef __cplusplus
extern "C" {
#endif

/* The places of the six numbers of togyamiru_grade's answer. */
enum {
    TOGYAMIRU_NUMBER,  /* the refusal's number, 0 where the file is graded */
    TOGYAMIRU_PLACE,   /* the refusal's place: an offset in the file; with 15 the words needed, with 22 the faults; else 0 */
    TOGYAMIRU_VECTORS, /* the four counts, 0 where the file is refused */
    TOGYAMIRU_FAULTS,
    TOGYAMIRU_CLASSES,
    TOGYAMIRU_FOUND,
    TOGYAMIRU_NUMBERS
};

/* The place of the number that togyamiru_grade_numbers gives behind those six, and how many it has in all. */
enum {
    TOGYAMIRU_ROUNDS = TOGYAMIRU_NUMBERS, /* the rounds: the greatest distance of a joined node from its rail, in on edges along a shortest path */
    TOGYAMIRU_ALL_NUMBERS
};

/* The refusal numbers. docs/FORMAT.md has each with its place and an example. */
enum {
    TOGYAMIRU_NOT_REFUSED = 0,
    TOGYAMIRU_TOO_LONG = 1,
    TOGYAMIRU_BROKEN = 2,
    TOGYAMIRU_UNKNOWN_TAG = 3,
    TOGYAMIRU_MISPLACED = 4,
    TOGYAMIRU_WRONG_LENGTH = 5,
    TOGYAMIRU_TOO_MANY = 6,
    TOGYAMIRU_OUT_OF_RANGE = 7,
    TOGYAMIRU_BAD_ENDS = 8,
    TOGYAMIRU_NOT_COMPLEMENTARY = 9,
    TOGYAMIRU_BAD_REFERENCE = 10,
    TOGYAMIRU_BRIDGE_UNSUITED = 11,
    TOGYAMIRU_EMPTY_LIST = 12,
    TOGYAMIRU_TOO_MANY_FAULTS = 13,
    TOGYAMIRU_UNFINISHED = 14,
    TOGYAMIRU_SHORT_MATRIX = 15,
    TOGYAMIRU_SHORT_BUFFER = 22
};

/*
 * The longest file that is graded, the most faults that a file can have, the words of the matrix for each, and the bytes of stack that are enough for a call.
 * MOST_FAULTS * WORDS_A_FAULT words of matrix, MOST_FAULTS classes and MOST_FAULTS rows are enough for every file.
 */
#define TOGYAMIRU_MOST_BYTES 57344
#define TOGYAMIRU_MOST_FAULTS 2048
#define TOGYAMIRU_WORDS_A_FAULT 4
#define TOGYAMIRU_MOST_STACK 65536

/*
 * Grades a circuit file.
 *
 *   file      file_length bytes, which are read only. Any bytes at all are graded or refused.
 *   matrix    matrix_words words. Where the file is graded, four words for each fault, row by row; togyamiru_marked reads them.
 *             Words past the last row keep their contents.
 *   classes   class_entries numbers. Where the file is graded, the class of each row, from 1; rows that join the same two wires have one, also in different
 *             instances (docs/REPORT.md). Later entries keep theirs.
 *   answer    room for six numbers, all of them written.
 *
 * After a refusal the matrix and the class buffer are as they were.
 *
 * To learn how much a file needs, lend 0 words and 0 entries, by pointers that are not null. The answer is then 15 with the words needed, four for each fault; or
 * 0 of a file without faults, which needs none; or what the file is refused for. With words enough and 0 entries it is 22 with the faults.
 * examples/report.c lends so.
 */
void togyamiru_grade(const uint8_t *file, size_t file_length, uint64_t *matrix, size_t matrix_words, uint16_t *classes,
                     size_t class_entries, uint64_t answer[TOGYAMIRU_NUMBERS]);

/*
 * Grades a circuit file as togyamiru_grade does, with the same refusals and the same contents of both buffers at the end, and gives more of the answer.
 *
 *   numbers   number_entries numbers. As many as have room are written, from the front: the six of togyamiru_grade, then the rounds; after a refusal all but
 *             the first two are 0. Later entries keep their contents.
 *
 * togyamiru_grade stays as it is for callers that were built with six numbers. Here a later version writes its new numbers behind these, so a caller lends room
 * for as many as it knows.
 */
void togyamiru_grade_numbers(const uint8_t *file, size_t file_length, uint64_t *matrix, size_t matrix_words, uint16_t *classes,
                             size_t class_entries, uint64_t *numbers, size_t number_entries);

/* The places of the three numbers of an answer about rows: the first two as above, then the faults, 0 where the file is refused. */
enum { TOGYAMIRU_ROWS_FAULTS = 2, TOGYAMIRU_ROWS_NUMBERS = 3 };

/*
 * Says what the rows are: row r of the matrix, from 0, is the bridge that rows[r] tells, a code that the functions below take apart.
 *
 *   file      as above, and refused by the same numbers at the same places.
 *   rows      row_entries codes. Where the file is not refused, the code of each row. Later entries keep their contents.
 *             A buffer shorter than the faults is refused as a class buffer is: 22 with the faults.
 *   answer    room for three numbers, all of them written.
 *
 * After a refusal the row buffer is as it was.
 */
void togyamiru_rows(const uint8_t *file, size_t file_length, uint32_t *rows, size_t row_entries, uint64_t answer[TOGYAMIRU_ROWS_NUMBERS]);

/* Of a row's code: the instance, from 1; the kind; and the two ends. */
static inline unsigned togyamiru_instance(uint32_t code)
{
    return code >> 24;
}

/* 0: a bridge of two nodes. 1: a bridge of a node, the first end, and a label, the second; labels are counted from 0. */
static inline unsigned togyamiru_kind(uint32_t code)
{
    return code >> 16 & 255;
}

static inline unsigned togyamiru_first(uint32_t code)
{
    return code >> 8 & 255;
}

static inline unsigned togyamiru_second(uint32_t code)
{
    return code & 255;
}

/* 1 where a row, from 0, is marked under a vector, from 1, and 0 where it is not. Vectors past the last of the file, up to 256, mark nothing. */
static inline int togyamiru_marked(const uint64_t *matrix, size_t row, size_t vector)
{
    return (int)(matrix[TOGYAMIRU_WORDS_A_FAULT * row + (vector - 1) / 64] >> (vector - 1) % 64 & 1);
}

/* What a refusal number says, in a few words with the letters of docs/FORMAT.md; "not refused" for 0, and "no such number" for one that is never given. */
static inline const char *togyamiru_words(uint64_t number)
{
    switch (number) {
    case TOGYAMIRU_NOT_REFUSED:
        return "not refused";
    case TOGYAMIRU_TOO_LONG:
        return "file longer than 57,344 bytes";
    case TOGYAMIRU_BROKEN:
        return "fewer than 3 bytes left for a head, or fewer than its length";
    case TOGYAMIRU_UNKNOWN_TAG:
        return "tag not 1 to 7";
    case TOGYAMIRU_MISPLACED:
        return "tag not allowed after what came before";
    case TOGYAMIRU_WRONG_LENGTH:
        return "length not one allowed for the tag";
    case TOGYAMIRU_TOO_MANY:
        return "one type, edge, bridge, instance or vector too many";
    case TOGYAMIRU_OUT_OF_RANGE:
        return "a number or vector byte outside its range; kind 0 bridge or pass transistor with equal ends";
    case TOGYAMIRU_BAD_ENDS:
        return "edge of tag 3 with equal ends, or breaking the channel rule";
    case TOGYAMIRU_NOT_COMPLEMENTARY:
        return "type not complementary";
    case TOGYAMIRU_BAD_REFERENCE:
        return "reference count differs from k, or a reference is zero, above P or not earlier";
    case TOGYAMIRU_BRIDGE_UNSUITED:
        return "a bridge of the chosen list has a node above h or a label not below k";
    case TOGYAMIRU_EMPTY_LIST:
        return "chosen list has no bridge";
    case TOGYAMIRU_TOO_MANY_FAULTS:
        return "this instance's faults bring the total above 2,048";
    case TOGYAMIRU_UNFINISHED:
        return "file ended with no tag 1, no instance or no vector";
    case TOGYAMIRU_SHORT_MATRIX:
        return "matrix shorter than 4 times the faults";
    case TOGYAMIRU_SHORT_BUFFER:
        return "class or row buffer shorter than the faults";
    default:
        return "no such number";
    }
}

#ifdef __cplusplus
}
#endif

#endif
