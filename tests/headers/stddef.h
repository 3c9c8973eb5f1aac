/* As much of <stddef.h> as the C programs here need, for x86-64: see tools/kit. */
#pragma once
typedef __SIZE_TYPE__ size_t;
#define NULL ((void *)0)
