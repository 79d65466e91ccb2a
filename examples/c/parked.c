/* A right program whose harts stay where they are when they have done their part, in `j .`, as firmware does that has nowhere to go back to. Hart 0 ends when all have. */
#include <stdatomic.h>

#define EACH 8

static atomic_uint sum, done;

static __attribute__((noinline)) _Noreturn void park(void)
{
    for (;;) {
    }
}

int main(unsigned hart, unsigned harts)
{
    for (unsigned n = 0; n < EACH; n++) {
        atomic_fetch_add(&sum, hart);
    }
    atomic_fetch_add(&done, 1);
    if (hart != 0) {
        park();
    }
    while (atomic_load(&done) != harts) {
    }
    return atomic_load(&sum) != EACH * harts * (harts - 1) / 2;
}
