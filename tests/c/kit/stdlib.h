/* The kit's clang brings no headers; these are the functions of stdlib.h that the bench and an example call. */
#pragma once
#include <stddef.h>
void qsort(void *base, size_t count, size_t size, int (*compare)(const void *, const void *));
void *malloc(size_t size);
void free(void *memory);
