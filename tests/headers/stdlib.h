/* As much of <stdlib.h> as the C programs here need, for x86-64: see tools/kit. */
#pragma once
#include <stddef.h>
void *realloc(void *memory, size_t bytes);
void free(void *memory);
void exit(int status) __attribute__((noreturn));
