/* Two accounts, each under a lock of its own, and transfers from one to the other. The bug: a transfer first takes the lock of the account that it takes from, so two
   transfers in both directions may each hold one lock and wait for the other's, for ever. MENDED: it takes the locks in the order of their addresses. */
#include <stdatomic.h>

#define ROUNDS 4

struct account {
    atomic_uint lock;
    unsigned money;
};

static struct account savings = {.money = 100}, spending = {.money = 100};

static __attribute__((noinline)) void lock(atomic_uint *word)
{
    while (atomic_exchange(word, 1) != 0) {
    }
}

static void unlock(atomic_uint *word)
{
    atomic_store(word, 0);
}

static __attribute__((noinline)) void transfer(struct account *from, struct account *to, unsigned money)
{
#ifdef MENDED
    int in_order = (unsigned)from < (unsigned)to;
    struct account *first = in_order ? from : to, *second = in_order ? to : from;
#else
    struct account *first = from, *second = to;
#endif
    lock(&first->lock);
    lock(&second->lock);
    from->money -= money;
    to->money += money;
    unlock(&second->lock);
    unlock(&first->lock);
}

int main(unsigned hart, unsigned harts)
{
    (void)harts;
    for (unsigned round = 0; round < ROUNDS; round++) {
        if (hart % 2 == 0) {
            transfer(&savings, &spending, 1);
        } else {
            transfer(&spending, &savings, 1);
        }
    }
    return 0;
}
