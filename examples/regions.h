/* Lets a C compiler take programs of RC, in the same folder as they are:

       gcc -std=gnu11 -funsigned-char -fwrapv -fno-builtin -ftrivial-auto-var-init=zero -o list list.c

   gcc knows these words from version 12 on, clang from version 16 on. An older clang, as Debian 12's
   clang 14, takes them with one more:

       -enable-trivial-auto-var-init-zero-knowing-it-will-be-removed-from-clang

   tcc takes the words too, and an older gcc those before the last; but there a local isn't zero at first,
   so it has to be given a value before it is read. `rc` itself never reads this file: it skips each line
   `#include`.

   Here nothing is checked: a pointer into a deleted region is as wild as any other in C, no
   annotation is looked at, and a deletion always goes through. C also leaves open what RC defines, as
   the order of operands, and does not let a string literal be written to.

   Names of the C library, as `printf`, `index` or `free`, are the program's own: of the library only
   `getchar` and `putchar` are to be seen, and a function or variable of the program never takes the place
   of one that the library uses, as long as the library is linked when the program starts, which is usual.
   Names that can't be used are those that begin with an underscore or with `regions_`. */
#ifndef REGIONS_H
#define REGIONS_H

#define sameregion
#define parentptr
#define traditional
#define deletes

#undef NULL
#undef EOF
#define NULL ((void *)0)
#define EOF (-1)

int getchar(void);
int putchar(int byte);
void *calloc(__SIZE_TYPE__ length, __SIZE_TYPE__ size);
void free(void *pointer);
void abort(void);

/* A block of memory, whose bytes follow it. */
struct regions_block {
    struct regions_block *next;
    __SIZE_TYPE__ size;
    _Alignas(16) unsigned char bytes[];
};

typedef struct regions_record {
    struct regions_block *blocks;
    struct regions_record *next;
} *region;

/* Region 0, where globals and string literals lie, and after it the regions that live. */
static struct regions_record regions_root;

static inline region newregion(void) {
    region r = calloc(1, sizeof *r);
    if (r == NULL) abort();
    r->next = regions_root.next;
    regions_root.next = r;
    return r;
}

/* A child. Who its parent is matters to checks alone, and there are none here. */
static inline region newsubregion(region parent) {
    if (parent == NULL) abort();
    return newregion();
}

static inline void deleteregion(region r) {
    region *link = &regions_root.next;
    while (*link != r) link = &(*link)->next;
    *link = r->next;
    while (r->blocks != NULL) {
        struct regions_block *block = r->blocks;
        r->blocks = block->next;
        free(block);
    }
    free(r);
}

static inline void *regions_allocate(region r, int length, __SIZE_TYPE__ size) {
    if (r == NULL || length < 0) abort();
    struct regions_block *block = calloc(1, sizeof *block + (__SIZE_TYPE__)length * size + 1);
    if (block == NULL) abort();
    block->size = (__SIZE_TYPE__)length * size;
    block->next = r->blocks;
    r->blocks = block;
    return block->bytes;
}

#define ralloc(r, ...) ((__VA_ARGS__ *)regions_allocate((r), 1, sizeof(__VA_ARGS__)))
#define rarrayalloc(r, n, ...) ((__VA_ARGS__ *)regions_allocate((r), (n), sizeof(__VA_ARGS__)))

/* The region of the block that a pointer leads into: region 0 where it leads into none. */
static inline region regionof(const void *pointer) {
    const unsigned char *p = pointer;
    if (p == NULL) abort();
    for (region r = regions_root.next; r != NULL; r = r->next)
        for (struct regions_block *block = r->blocks; block != NULL; block = block->next)
            if (block->bytes <= p && p <= block->bytes + block->size) return r;
    return &regions_root;
}

/* Names that a program may give to its own functions and variables, though the library, or the code
   that a compiler makes, means its own by them; and then words and numbers of gcc. */
#define malloc regions_own_malloc
#define calloc regions_own_calloc
#define realloc regions_own_realloc
#define free regions_own_free
#define memalign regions_own_memalign
#define aligned_alloc regions_own_aligned_alloc
#define posix_memalign regions_own_posix_memalign
#define stdin regions_own_stdin
#define stdout regions_own_stdout
#define stderr regions_own_stderr
#define abort regions_own_abort
#define memcpy regions_own_memcpy
#define memmove regions_own_memmove
#define memset regions_own_memset
#define memcmp regions_own_memcmp
#define strlen regions_own_strlen
#define asm regions_own_asm
#define typeof regions_own_typeof
#undef linux
#undef unix

#endif
