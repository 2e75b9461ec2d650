#ifndef STDIO_H
#define STDIO_H
#include <stddef.h>
typedef struct FILE FILE;
extern FILE *stdin, *stdout;
int printf(const char *, ...);
size_t fread(void *, size_t, size_t, FILE *);
size_t fwrite(const void *, size_t, size_t, FILE *);
#endif
