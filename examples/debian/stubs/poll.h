/* liburcu sleeps by `poll` of nothing. */
#ifndef STUBS_POLL_H
#define STUBS_POLL_H

#include <unistd.h>

static inline int poll(void *files, unsigned count, int milliseconds)
{
    (void)files, (void)count;
    return usleep(1000u * (unsigned)milliseconds);
}

#endif
