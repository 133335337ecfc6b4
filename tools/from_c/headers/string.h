#ifndef FROM_C_STRING
#define FROM_C_STRING
#include <stddef.h>
size_t strlen(const char *s);
int strcmp(const char *s, const char *t);
int strncmp(const char *s, const char *t, size_t n);
char *strcpy(char *to, const char *from);
char *strncpy(char *to, const char *from, size_t n);
char *strcat(char *to, const char *from);
char *strncat(char *to, const char *from, size_t n);
char *strchr(const char *s, int c);
char *strrchr(const char *s, int c);
char *strstr(const char *s, const char *t);
void *memset(void *to, int c, size_t n);
void *memcpy(void *to, const void *from, size_t n);
#endif
