/* Without picolibc: an assert that prints where it failed and ends the program with 134. */
#if __has_include_next(<assert.h>)
#include_next <assert.h>
#else

#undef assert
#ifdef NDEBUG
#define assert(condition) ((void)0)
#else
#define assert(condition) ((condition) ? (void)0 : __assert_func(__FILE__, __LINE__, __func__, #condition))
#endif

#ifndef static_assert
#define static_assert _Static_assert
#endif

_Noreturn void __assert_func(const char *file, int line, const char *function, const char *condition);

#endif
