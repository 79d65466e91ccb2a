/* sched_yield, which picolibc does not declare. */
#ifndef THREADS_SCHED_H
#define THREADS_SCHED_H

int sched_yield(void);

#endif
