/* Without picolibc: what of stdlib.h the library has. */
#ifndef THREADS_STDLIB_H
#define THREADS_STDLIB_H

#if __has_include_next(<stdlib.h>)
#include_next <stdlib.h>
#else

#include <stddef.h>

#define EXIT_SUCCESS 0
#define EXIT_FAILURE 1

_Noreturn void exit(int code);
_Noreturn void abort(void);

#endif
#endif
