/* The kit's clang brings no headers; this is what the tests, the bench and the examples use of stdio.h. */
#pragma once
#include <stddef.h>
typedef struct _IO_FILE FILE;
extern FILE *stdin;
extern FILE *stdout;
extern FILE *stderr;
FILE *fopen(const char *name, const char *mode);
size_t fread(void *to, size_t size, size_t count, FILE *from);
int ferror(FILE *of);
int fflush(FILE *of);
int printf(const char *format, ...);
int fprintf(FILE *to, const char *format, ...);
