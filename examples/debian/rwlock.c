/* Readers and writers of a pair of words under ck_rwlock, Concurrency Kit's lock of readers and writers. Writers change both words, and a reader that sees
   them differ exits with 1. BROKEN: the lock's header lacks the second look at the writer, behind the reader's arrival; `build` takes it out. */
#include <ck_rwlock.h>

#define ROUNDS 12

static ck_rwlock_t lock = CK_RWLOCK_INITIALIZER;
static unsigned first, second;

static __attribute__((noinline)) void change(void)
{
    ck_rwlock_write_lock(&lock);
    first++;
    second = first;
    ck_rwlock_write_unlock(&lock);
}

static __attribute__((noinline)) unsigned differ(void)
{
    ck_rwlock_read_lock(&lock);
    unsigned differs = first != second;
    ck_rwlock_read_unlock(&lock);
    return differs;
}

/* One hart of four writes. */
int main(unsigned hart, unsigned harts)
{
    unsigned wrong = 0;
    (void)harts;
    for (unsigned round = 0; round < ROUNDS; round++) {
        if (hart % 4 == 0) {
            change();
        } else {
            wrong |= differ();
        }
    }
    return (int)wrong;
}
