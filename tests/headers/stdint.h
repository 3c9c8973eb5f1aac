/* As much of <stdint.h> as the C programs here need, for x86-64: see tools/kit. */
#pragma once
typedef __UINT8_TYPE__ uint8_t;
typedef __INT32_TYPE__ int32_t;
typedef __INT64_TYPE__ int64_t;
typedef __UINT64_TYPE__ uint64_t;
#define INT64_MIN (-__INT64_MAX__ - 1)
