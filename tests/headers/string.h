/* As much of <string.h> as the C programs here need, for x86-64: see tools/kit. */
#pragma once
#include <stddef.h>
void *memset(void *to, int byte, size_t bytes);
void *memcpy(void *to, const void *from, size_t bytes);
int memcmp(const void *one, const void *other, size_t bytes);
int strcmp(const char *one, const char *other);
size_t strlen(const char *text);
