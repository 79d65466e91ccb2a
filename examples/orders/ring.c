/* Pairs of harts with a ring: the even one puts numbers in, and the odd one takes them out in their order. A number is put into its slot first, and announced then.
   WRONG: it is announced first, so the other may take what lay there before. Who takes a wrong number exits with 1. */
#include <stdatomic.h>

#define PAIRS 8
#define SLOTS 4
#define NUMBERS 12

struct ring {
    atomic_uint put, taken;
    unsigned slots[SLOTS];
};

static struct ring rings[PAIRS];

static __attribute__((noinline)) void put(struct ring *ring, unsigned number)
{
    unsigned at = atomic_load_explicit(&ring->put, memory_order_relaxed);
    while (at - atomic_load_explicit(&ring->taken, memory_order_acquire) == SLOTS) {
    }
#ifdef WRONG
    atomic_store_explicit(&ring->put, at + 1, memory_order_release);
    ring->slots[at % SLOTS] = number;
#else
    ring->slots[at % SLOTS] = number;
    atomic_store_explicit(&ring->put, at + 1, memory_order_release);
#endif
}

static __attribute__((noinline)) unsigned take(struct ring *ring)
{
    unsigned at = atomic_load_explicit(&ring->taken, memory_order_relaxed);
    while (atomic_load_explicit(&ring->put, memory_order_acquire) == at) {
    }
    unsigned number = ring->slots[at % SLOTS];
    atomic_store_explicit(&ring->taken, at + 1, memory_order_release);
    return number;
}

int main(unsigned hart, unsigned harts)
{
    struct ring *ring = &rings[hart / 2];
    unsigned wrong = 0;
    if (hart % 2 == 0 && hart + 1 == harts) {
        return 0;
    }
    for (unsigned number = 1; number <= NUMBERS; number++) {
        if (hart % 2 == 0) {
            put(ring, number);
        } else {
            wrong |= take(ring) != number;
        }
    }
    return (int)wrong;
}
