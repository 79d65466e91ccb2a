/* A sequence lock: hart 0 writes two words, and the others read them and read again where a writer was there meanwhile, as the sequence shows that is odd while one is. The words are
   written first, and the sequence is made even then. WRONG: it is made even between the two, so a reader may believe in halves. Who does exits with 1.
   Readers and the writer touch the words side by side in the right program too: what was read then is thrown away. */
#include <stdatomic.h>

#define WRITES 12
#define READS 6

static atomic_uint sequence;
static volatile unsigned first, second;

static __attribute__((noinline)) void write_both(unsigned number)
{
    unsigned even = atomic_load_explicit(&sequence, memory_order_relaxed);
    atomic_store_explicit(&sequence, even + 1, memory_order_relaxed);
    atomic_thread_fence(memory_order_release);
    first = number;
#ifdef WRONG
    atomic_store_explicit(&sequence, even + 2, memory_order_release);
    second = number;
#else
    second = number;
    atomic_store_explicit(&sequence, even + 2, memory_order_release);
#endif
}

static __attribute__((noinline)) unsigned differ(void)
{
    for (;;) {
        unsigned before = atomic_load_explicit(&sequence, memory_order_acquire);
        unsigned one = first, other = second;
        atomic_thread_fence(memory_order_acquire);
        if (before % 2 == 0 && atomic_load_explicit(&sequence, memory_order_relaxed) == before) {
            return one != other;
        }
    }
}

int main(unsigned hart, unsigned harts)
{
    unsigned wrong = 0;
    (void)harts;
    if (hart == 0) {
        for (unsigned number = 1; number <= WRITES; number++) {
            write_both(number);
        }
        return 0;
    }
    for (unsigned read = 0; read < READS; read++) {
        wrong |= differ();
    }
    return (int)wrong;
}
