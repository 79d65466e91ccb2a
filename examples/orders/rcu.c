/* Read, copy, update: hart 0 fills in the node that is not in use, makes it the current one, waits until every reader that may still look at the old one has passed,
   and wipes that. Each reader counts its passes, an odd number while it reads. WRONG: the old node is wiped first, and the wait comes then. Who reads a node whose halves
   don't agree exits with 1. */
#include <stdatomic.h>

#define HARTS 16
#define UPDATES 4
#define READS 6

struct node {
    unsigned value, inverse;
};

static struct node nodes[2] = {{0, ~0u}, {0, 0}};
static _Atomic(struct node *) current = &nodes[0];
static atomic_uint passes[HARTS];

/* A reader that is inside may look at the old node; who comes later can't. */
static __attribute__((noinline)) void wait_for_readers(unsigned harts)
{
    for (unsigned reader = 1; reader < harts; reader++) {
        unsigned seen = atomic_load(&passes[reader]);
        while (seen % 2 == 1 && atomic_load(&passes[reader]) == seen) {
        }
    }
}

static __attribute__((noinline)) void wipe(struct node *node)
{
    node->value = 0;
    node->inverse = 0;
}

static __attribute__((noinline)) void update(unsigned value, unsigned harts)
{
    struct node *old = atomic_load_explicit(&current, memory_order_relaxed);
    struct node *next = old == &nodes[0] ? &nodes[1] : &nodes[0];
    next->value = value;
    next->inverse = ~value;
    atomic_store(&current, next);
#ifdef WRONG
    wipe(old);
    wait_for_readers(harts);
#else
    wait_for_readers(harts);
    wipe(old);
#endif
}

static __attribute__((noinline)) unsigned read(unsigned hart)
{
    atomic_fetch_add(&passes[hart], 1);
    struct node *node = atomic_load(&current);
    unsigned wrong = node->inverse != ~node->value;
    atomic_fetch_add(&passes[hart], 1);
    return wrong;
}

int main(unsigned hart, unsigned harts)
{
    unsigned wrong = 0;
    if (hart == 0) {
        for (unsigned value = 1; value <= UPDATES; value++) {
            update(value, harts);
        }
        return 0;
    }
    for (unsigned round = 0; round < READS; round++) {
        wrong |= read(hart);
    }
    return (int)wrong;
}
