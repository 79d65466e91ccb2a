/* A right program whose workers never end: hart 0 puts jobs into a queue and leaves, and when these are done the others look into the empty queue for ever. A hunt says
   that they wait there, and with `--idle wait_for_job` that this is as it should be. */
#include <stdatomic.h>

#define JOBS 16

/* `put` jobs lie in the queue, of which `taken` were taken. */
static unsigned jobs[JOBS];
static atomic_uint put, taken, sum;

static void fill(void)
{
    for (unsigned job = 0; job < JOBS; job++) {
        jobs[job] = job * job;
        atomic_store(&put, job + 1);
    }
}

static __attribute__((noinline)) unsigned wait_for_job(void)
{
    for (;;) {
        unsigned next = atomic_load(&taken);
        if (next < atomic_load(&put)) {
            return next;
        }
    }
}

static _Noreturn void work(void)
{
    for (;;) {
        unsigned next = wait_for_job();
        /* Another worker may have taken it by now. */
        if (atomic_compare_exchange_strong(&taken, &next, next + 1)) {
            atomic_fetch_add(&sum, jobs[next]);
        }
    }
}

int main(unsigned hart, unsigned harts)
{
    (void)harts;
    if (hart == 0) {
        fill();
        return 0;
    }
    work();
}
