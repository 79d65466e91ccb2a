/* Spin locks. Ends with 0. */
#include <assert.h>
#include <errno.h>
#include <pthread.h>

static pthread_spinlock_t lock;
static int count;

static void *add(void *argument)
{
    for (int i = 0; i < 5; i++) {
        assert(pthread_spin_lock(&lock) == 0);
        int found = count;
        sched_yield();
        count = found + 1;
        assert(pthread_spin_unlock(&lock) == 0);
    }
    return argument;
}

int main(void)
{
    pthread_t threads[3];
    lock = 7;
    assert(pthread_spin_init(&lock, PTHREAD_PROCESS_PRIVATE) == 0);
    for (int i = 0; i < 3; i++) {
        assert(pthread_create(&threads[i], NULL, add, NULL) == 0);
    }
    for (int i = 0; i < 3; i++) {
        assert(pthread_join(threads[i], NULL) == 0);
    }
    assert(count == 15);
    assert(pthread_spin_trylock(&lock) == 0);
    assert(pthread_spin_trylock(&lock) == EBUSY);
    assert(pthread_spin_destroy(&lock) == EBUSY);
    assert(pthread_spin_unlock(&lock) == 0);
    assert(pthread_spin_destroy(&lock) == 0);
    return 0;
}
