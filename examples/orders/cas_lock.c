/* A lock by compare and exchange over a count. The lock is taken first, and the count is read then. WRONG: it is read first, so another hart may count in between, and that is
   lost. Hart 0 waits for the others, and exits with how many were lost. */
#include <stdatomic.h>

#define ROUNDS 6

static atomic_uint lock, done;
static unsigned count;

static __attribute__((noinline)) void acquire(void)
{
    unsigned free = 0;
    while (!atomic_compare_exchange_strong(&lock, &free, 1)) {
        free = 0;
    }
}

static void release(void)
{
    atomic_store_explicit(&lock, 0, memory_order_release);
}

static __attribute__((noinline)) void add(void)
{
#ifdef WRONG
    unsigned seen = count;
    acquire();
#else
    acquire();
    unsigned seen = count;
#endif
    count = seen + 1;
    release();
}

int main(unsigned hart, unsigned harts)
{
    for (unsigned round = 0; round < ROUNDS; round++) {
        add();
    }
    atomic_fetch_add(&done, 1);
    if (hart != 0) {
        return 0;
    }
    while (atomic_load_explicit(&done, memory_order_acquire) != harts) {
    }
    return (int)(harts * ROUNDS - count);
}
