#ifndef FROM_C_STDLIB
#define FROM_C_STDLIB
#include <stddef.h>
#define EXIT_SUCCESS 0
#define EXIT_FAILURE 1
void *malloc(size_t n);
void *calloc(size_t n, size_t size);
void free(void *p);
void exit(int status);
int abs(int n);
int atoi(const char *s);
#endif
