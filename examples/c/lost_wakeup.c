/* Pairs of harts that take turns: in each round one gets something ready, and the other sleeps until it is. The bug: who goes to sleep looks first, and says only then that
   it sleeps. If the other comes in between, it finds nobody to wake, and the sleeper is never woken. Every word is atomic, so there is no race to report. MENDED: it says so
   first, and looks then. */
#include <stdatomic.h>

#define PAIRS 8
#define ROUNDS 6

struct event {
    atomic_uint ready, sleeping;
};

static struct event events[PAIRS][ROUNDS];

static __attribute__((noinline)) void sleep(struct event *event)
{
    while (atomic_load(&event->sleeping) != 0) {
    }
}

static __attribute__((noinline)) void wait_for(struct event *event)
{
#ifdef MENDED
    atomic_store(&event->sleeping, 1);
    if (atomic_load(&event->ready) == 0) {
        sleep(event);
    }
#else
    if (atomic_load(&event->ready) == 0) {
        atomic_store(&event->sleeping, 1);
        sleep(event);
    }
#endif
}

static __attribute__((noinline)) void wake(struct event *event)
{
    atomic_store(&event->ready, 1);
    if (atomic_load(&event->sleeping) != 0) {
        atomic_store(&event->sleeping, 0);
    }
}

int main(unsigned hart, unsigned harts)
{
    if (hart % 2 == 0 && hart + 1 == harts) {
        return 0;
    }
    for (unsigned round = 0; round < ROUNDS; round++) {
        struct event *event = &events[hart / 2][round];
        if ((hart + round) % 2 == 0) {
            wake(event);
        } else {
            wait_for(event);
        }
    }
    return 0;
}
