/* Without picolibc: what of unistd.h the library has. */
#ifndef THREADS_UNISTD_H
#define THREADS_UNISTD_H

#if __has_include_next(<unistd.h>)
#include_next <unistd.h>
#else

typedef unsigned long useconds_t;

#define _SC_NPROCESSORS_ONLN 10

unsigned sleep(unsigned seconds);
int usleep(useconds_t microseconds);
long sysconf(int name);
_Noreturn void _exit(int code);

#endif
#endif
