/* A hart's clock counts the rounds that it waited or slept; picolibc has the types and declares the calls where they are asked for. */
#ifndef THREADS_TIME_H
#define THREADS_TIME_H

#if __has_include_next(<time.h>)
#ifndef _POSIX_TIMERS
#define _POSIX_TIMERS 1
#endif
#ifndef _POSIX_MONOTONIC_CLOCK
#define _POSIX_MONOTONIC_CLOCK 1
#endif
#include_next <time.h>
#else

typedef long long time_t;
typedef int clockid_t;

struct timespec {
    time_t tv_sec;
    long tv_nsec;
};

#define CLOCK_REALTIME 1
#define CLOCK_MONOTONIC 4

int clock_gettime(clockid_t clock, struct timespec *now);
int nanosleep(const struct timespec *time, struct timespec *left);

#endif

#ifndef TIME_UTC
#define TIME_UTC 1
#endif
static inline int timespec_get(struct timespec *now, int base) { return clock_gettime(CLOCK_REALTIME, now) == 0 ? base : 0; }

#endif
