/* Workers wait until hart 0 says that they may go, and hart 0 waits until all have gone. The bug: `may_go` is neither atomic nor volatile, so the compiler loads it
   once, before the loop. A worker that comes before hart 0 keeps the 0 in a register, and looks no more. MENDED: it is volatile. */
#include <stdatomic.h>

#ifdef MENDED
static volatile unsigned may_go;
#else
static unsigned may_go;
#endif

static atomic_uint gone;

static __attribute__((noinline)) void wait_to_go(void)
{
    while (may_go == 0) {
    }
}

static __attribute__((noinline)) void wait_for_all(unsigned workers)
{
    while (atomic_load(&gone) != workers) {
    }
}

int main(unsigned hart, unsigned harts)
{
    if (hart == 0) {
        may_go = 1;
        wait_for_all(harts - 1);
        return 0;
    }
    wait_to_go();
    atomic_fetch_add(&gone, 1);
    return 0;
}
