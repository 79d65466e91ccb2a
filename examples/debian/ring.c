/* Many producers and one consumer of a ck_ring, Concurrency Kit's bounded queue. The last hart takes out what all others put in, adds it up, and exits
   with 1 if the sum is another. BROKEN: producers put in by the function that is for one producer alone. */
#include <ck_ring.h>

#define SLOTS 8
#define EACH 16

static ck_ring_t ring = {.size = SLOTS, .mask = SLOTS - 1};
static ck_ring_buffer_t slots[SLOTS];

static __attribute__((noinline)) bool put(unsigned value)
{
#ifdef BROKEN
    return ck_ring_enqueue_spsc(&ring, slots, (void *)value);
#else
    return ck_ring_enqueue_mpsc(&ring, slots, (void *)value);
#endif
}

static __attribute__((noinline)) bool take(void **value)
{
    return ck_ring_dequeue_mpsc(&ring, slots, value);
}

int main(unsigned hart, unsigned harts)
{
    unsigned all = (harts - 1) * EACH, sum = 0;
    if (hart < harts - 1) {
        for (unsigned value = 1 + hart * EACH; value <= (hart + 1) * EACH; value++) {
            while (!put(value)) {
            }
        }
        return 0;
    }
    /* Where a number was lost, this waits for it for ever. */
    for (unsigned taken = 0; taken < all; taken++) {
        void *value;
        while (!take(&value)) {
        }
        sum += (unsigned)value;
    }
    return sum != all * (all + 1) / 2;
}
