#ifndef FROM_C_STDIO
#define FROM_C_STDIO
#include <stddef.h>
#define EOF EOF
typedef struct from_c_file FILE;
extern const int EOF;
extern FILE *stdin, *stdout, *stderr;
int getchar(void);
int putchar(int c);
int getc(FILE *f);
int fgetc(FILE *f);
int putc(int c, FILE *f);
int fputc(int c, FILE *f);
int puts(const char *s);
int fputs(const char *s, FILE *f);
char *fgets(char *to, int n, FILE *f);
int printf(const char *format, ...);
int fprintf(FILE *f, const char *format, ...);
int fflush(FILE *f);
#endif
