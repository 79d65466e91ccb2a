/* A store of parts under a lock. Hart 0 brings parts, and the others take some. The bug: where there is none, `take` answers so and keeps the lock. Whether that
   happens depends on who comes first. MENDED: it gives the lock back there too. */
#include <stdatomic.h>

#define ROOM 32
#define EACH 2

static atomic_uint lock;
static unsigned count, parts[ROOM];

static __attribute__((noinline)) void acquire(void)
{
    while (atomic_exchange(&lock, 1) != 0) {
    }
}

static void release(void)
{
    atomic_store(&lock, 0);
}

static __attribute__((noinline)) int bring(unsigned part)
{
    acquire();
    if (count == ROOM) {
        release();
        return 0;
    }
    parts[count++] = part;
    release();
    return 1;
}

static __attribute__((noinline)) int take(unsigned *part)
{
    acquire();
    if (count == 0) {
#ifdef MENDED
        release();
#endif
        return 0;
    }
    *part = parts[--count];
    release();
    return 1;
}

int main(unsigned hart, unsigned harts)
{
    for (unsigned part = 1; hart == 0 && part <= (harts - 1) * EACH; part++) {
        bring(part);
    }
    /* A hart that finds no part does without. */
    for (unsigned taken = 0; hart != 0 && taken < EACH; taken++) {
        unsigned part;
        take(&part);
    }
    return 0;
}
