/* The guest that the check hunts in: half of the harts put jobs into a queue, the others take them out and add them up. Hart 0 exits with 1 if the sum isn't that of all jobs, so
   that each schedule is a test. KNOWN adds a figure that harts keep without a lock: a race that the team knows of. NEW adds another one, of which it doesn't. */
#include "../c/guest.h"
#include "queue.h"

#define EACH 6

static struct queue queue = EMPTY_QUEUE;
static atomic_uint arrived, putting, taking, sum;

#ifdef KNOWN
static unsigned longest;
#endif
#ifdef NEW
static unsigned started;

static __attribute__((noinline)) unsigned note(void)
{
    return ++started;
}
#endif

static __attribute__((noinline)) void work(unsigned job)
{
    atomic_fetch_add(&sum, job);
#ifdef KNOWN
    if (job > longest) {
        longest = job;
    }
#endif
#ifdef NEW
    if (note() > 1000) {
        leave(2);
    }
#endif
}

static __attribute__((noinline)) void put_jobs(unsigned first)
{
    for (unsigned job = first; job < first + EACH; job++) {
        while (!queue_put(&queue, job)) {
        }
    }
    atomic_fetch_sub(&putting, 1);
}

/* Nobody puts a job in any more where `putting` is 0, so an empty queue stays empty then. */
static __attribute__((noinline)) void take_jobs(void)
{
    unsigned job;
    while (atomic_load(&putting) != 0 || queue_length(&queue) != 0) {
        if (queue_take(&queue, &job)) {
            work(job);
        }
    }
    atomic_fetch_sub(&taking, 1);
}

/* Says what the hart will do, and waits until all have. */
static void arrive(atomic_uint *role, unsigned harts)
{
    atomic_fetch_add(role, 1);
    atomic_fetch_add(&arrived, 1);
    while (atomic_load(&arrived) != harts) {
    }
}

int main(unsigned hart, unsigned harts)
{
    unsigned jobs = harts / 2 * EACH;
    if (harts < 2) {
        return 0;
    }
    if (hart >= harts / 2) {
        arrive(&taking, harts);
        take_jobs();
        return 0;
    }
    arrive(&putting, harts);
    put_jobs(1 + hart * EACH);
    if (hart != 0) {
        return 0;
    }
    while (atomic_load(&taking) != 0) {
    }
    return atomic_load(&sum) != jobs * (jobs + 1) / 2;
}
