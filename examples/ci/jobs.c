/* A list of jobs under a spin lock: each hart takes jobs until there are none, and adds them up. The last hart to come back exits with 1 if the sum isn't that of all jobs, so that
   each schedule is a test. WRONG: the first job is looked at before the lock is taken, so two harts may do the same job. */
#include <stdatomic.h>
#include <stddef.h>

#define JOBS 12

struct job {
    struct job *next;
    unsigned work;
};

static struct job jobs[JOBS] = {
    {&jobs[1], 1}, {&jobs[2], 2}, {&jobs[3], 3}, {&jobs[4], 4}, {&jobs[5], 5}, {&jobs[6], 6},
    {&jobs[7], 7}, {&jobs[8], 8}, {&jobs[9], 9}, {&jobs[10], 10}, {&jobs[11], 11}, {NULL, 12},
};
static struct job *first = jobs;
static unsigned sum;
static atomic_uint lock, done;

static void take_lock(void)
{
    while (atomic_exchange_explicit(&lock, 1, memory_order_acquire) != 0) {
    }
}

static void leave_lock(void)
{
    atomic_store_explicit(&lock, 0, memory_order_release);
}

static __attribute__((noinline)) struct job *take_job(void)
{
#ifdef WRONG
    struct job *job = *(struct job *volatile *)&first;
    take_lock();
#else
    take_lock();
    struct job *job = first;
#endif
    if (job != NULL) {
        first = job->next;
    }
    leave_lock();
    return job;
}

static __attribute__((noinline)) void add_work(unsigned work)
{
    take_lock();
    sum += work;
    leave_lock();
}

int main(unsigned hart, unsigned harts)
{
    struct job *job;
    (void)hart;
    while ((job = take_job()) != NULL) {
        add_work(job->work);
    }
    if (atomic_fetch_add(&done, 1) + 1 != harts) {
        return 0;
    }
    take_lock();
    unsigned all = sum;
    leave_lock();
    return all != JOBS * (JOBS + 1) / 2;
}
