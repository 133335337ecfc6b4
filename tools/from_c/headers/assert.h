#ifndef FROM_C_ASSERT
#define FROM_C_ASSERT
#ifdef NDEBUG
#define assert(e) ((void)0)
#else
void assert(int e);
#endif
#endif
