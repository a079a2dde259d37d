/* The kit's clang brings no headers; these are the functions of string.h that the bench calls. */
#pragma once
#include <stddef.h>
void *memset(void *to, int byte, size_t n);
int memcmp(const void *a, const void *b, size_t n);
int strcmp(const char *a, const char *b);
