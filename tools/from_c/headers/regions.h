#ifndef FROM_C_REGIONS
#define FROM_C_REGIONS
#include <stdio.h>
#include <stdlib.h>
#define deletes
#define sameregion
#define parentptr
#define traditional
typedef struct from_c_region *region;
region newregion(void);
region newsubregion(region parent);
void deleteregion(region r);
region regionof(const void *p);
void *from_c_ralloc(region r, size_t size);
void *from_c_rarrayalloc(region r, size_t n, size_t size);
#define ralloc(r, ...) ((__VA_ARGS__ *)from_c_ralloc(r, sizeof(__VA_ARGS__)))
#define rarrayalloc(r, n, ...) ((__VA_ARGS__ *)from_c_rarrayalloc(r, n, sizeof(__VA_ARGS__)))
#endif
