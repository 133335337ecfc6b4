#ifndef FROM_C_STDDEF
#define FROM_C_STDDEF
#define NULL NULL
extern void *NULL;
typedef unsigned long size_t;
typedef long ptrdiff_t;
#endif
