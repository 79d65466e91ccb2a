/* Harts that allocate, fill, check and free by the malloc of picolibc, whose lock is here, as the library asks for it: `build` takes the library as Debian has
   built it. A hart whose block holds another byte than its own exits with 1. BROKEN: hart 0 is number 0, and so is nobody, so hart 0 believes
   that it holds the lock whenever no one does, and whoever comes takes it too. */
#include <stdatomic.h>
#include <stdlib.h>
#include <string.h>

#define ROUNDS 6
#define STACK_SIZE 0x10000u

/* Who holds the lock, or 0, and how often: malloc may call itself. */
struct __lock {
    atomic_uint holder;
    unsigned depth;
};

struct __lock __lock___libc_recursive_mutex;

/* A hart's stack lies where its number says. */
static unsigned own_number(void)
{
    unsigned sp;
    __asm__("mv %0, sp" : "=r"(sp));
#ifdef BROKEN
    return sp / STACK_SIZE % 16;
#else
    return sp / STACK_SIZE % 16 + 1;
#endif
}

void __retarget_lock_acquire_recursive(struct __lock *lock)
{
    unsigned self = own_number();
    for (;;) {
        unsigned found = 0;
        if (atomic_compare_exchange_strong(&lock->holder, &found, self) || found == self) {
            lock->depth++;
            return;
        }
    }
}

void __retarget_lock_release_recursive(struct __lock *lock)
{
    if (--lock->depth == 0) {
        atomic_exchange(&lock->holder, 0);
    }
}

int main(unsigned hart, unsigned harts)
{
    (void)harts;
    for (unsigned round = 0; round < ROUNDS; round++) {
        size_t size = 8 + 8 * ((hart + round) % 4);
        char *block = malloc(size), mine = (char)('a' + hart);
        if (block == NULL) {
            return 2;
        }
        memset(block, mine, size);
        for (size_t i = 0; i < size; i++) {
            if (block[i] != mine) {
                return 1;
            }
        }
        free(block);
    }
    return 0;
}
