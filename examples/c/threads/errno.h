/* Without picolibc: the errors that the calls answer, and an errno for each thread. */
#ifndef THREADS_ERRNO_H
#define THREADS_ERRNO_H

#if __has_include_next(<errno.h>)
#include_next <errno.h>
#else

#define EPERM 1
#define ESRCH 3
#define EINTR 4
#define EAGAIN 11
#define ENOMEM 12
#define EBUSY 16
#define EINVAL 22
#define EDEADLK 45
#define ETIMEDOUT 116

extern _Thread_local int errno;

#endif
#endif
