/* The kit's clang brings no headers; these are the functions of unistd.h and fcntl.h that the bench calls. */
#pragma once
#include <stddef.h>
long read(int file, void *to, size_t n);
long write(int file, const void *from, size_t n);
int close(int file);
#define O_RDONLY 0
int open(const char *name, int flags, ...);
