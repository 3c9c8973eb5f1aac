/* As much of <stdio.h> as the C programs here need, for x86-64: see tools/kit. */
#pragma once
#include <stddef.h>
#define EOF (-1)
typedef struct file FILE;
extern FILE *stdin, *stdout, *stderr;
int printf(const char *format, ...);
int fprintf(FILE *to, const char *format, ...);
size_t fread(void *to, size_t size, size_t many, FILE *from);
size_t fwrite(const void *from, size_t size, size_t many, FILE *to);
FILE *fopen(const char *name, const char *mode);
int fclose(FILE *file);
char *fgets(char *to, int bytes, FILE *from);
int getc(FILE *from);
int ungetc(int byte, FILE *from);
int fflush(FILE *to);
int ferror(FILE *file);
