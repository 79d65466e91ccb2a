/* A log of a sensor's samples under a sequence lock: hart 0 writes them, the others read the newest. A sample has a sum, so a reader that took half of one and half of the next
   knows it, and exits with 1. WRONG: a reader doesn't look again whether a writer came meanwhile. */
#include <stdatomic.h>

#define SAMPLES 10
#define READS 6

static atomic_uint sequence;
static atomic_uint time, value, sum;

static __attribute__((noinline)) void log_sample(unsigned now)
{
    unsigned even = atomic_load_explicit(&sequence, memory_order_relaxed);
    unsigned measured = now * 2654435761u;
    atomic_store_explicit(&sequence, even + 1, memory_order_relaxed);
    atomic_thread_fence(memory_order_release);
    atomic_store_explicit(&time, now, memory_order_relaxed);
    atomic_store_explicit(&value, measured, memory_order_relaxed);
    atomic_store_explicit(&sum, now ^ measured, memory_order_relaxed);
    atomic_store_explicit(&sequence, even + 2, memory_order_release);
}

static __attribute__((noinline)) unsigned is_torn(void)
{
    unsigned before, one, other, both;
    do {
        before = atomic_load_explicit(&sequence, memory_order_acquire);
        one = atomic_load_explicit(&time, memory_order_relaxed);
        other = atomic_load_explicit(&value, memory_order_relaxed);
        both = atomic_load_explicit(&sum, memory_order_relaxed);
        atomic_thread_fence(memory_order_acquire);
#ifdef WRONG
    } while (before % 2 != 0);
#else
    } while (before % 2 != 0 || atomic_load_explicit(&sequence, memory_order_relaxed) != before);
#endif
    return both != (one ^ other);
}

int main(unsigned hart, unsigned harts)
{
    unsigned torn = 0;
    (void)harts;
    if (hart == 0) {
        for (unsigned now = 1; now <= SAMPLES; now++) {
            log_sample(now);
        }
        return 0;
    }
    for (unsigned read = 0; read < READS; read++) {
        torn |= is_torn();
    }
    return torn;
}
