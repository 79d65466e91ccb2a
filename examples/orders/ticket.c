/* A ticket lock over two words, which agree whenever no one is inside. Both are changed first, and the next is served then. WRONG: the next is served between the two,
   and may find that they differ. Who does exits with 1. */
#include <stdatomic.h>

#define ROUNDS 6

static atomic_uint tickets, serving;
static unsigned first, second;

static __attribute__((noinline)) void enter(void)
{
    unsigned mine = atomic_fetch_add(&tickets, 1);
    while (atomic_load_explicit(&serving, memory_order_acquire) != mine) {
    }
}

static void serve_next(void)
{
    unsigned mine = atomic_load_explicit(&serving, memory_order_relaxed);
    atomic_store_explicit(&serving, mine + 1, memory_order_release);
}

static __attribute__((noinline)) unsigned change(void)
{
    enter();
    unsigned differ = first != second, next = first + 1;
    first = next;
#ifdef WRONG
    serve_next();
    second = next;
#else
    second = next;
    serve_next();
#endif
    return differ;
}

int main(unsigned hart, unsigned harts)
{
    unsigned wrong = 0;
    (void)hart, (void)harts;
    for (unsigned round = 0; round < ROUNDS; round++) {
        wrong |= change();
    }
    return (int)wrong;
}
