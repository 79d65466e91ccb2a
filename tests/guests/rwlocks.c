/* Locks of many readers or one writer. Ends with 0. */
#include <assert.h>
#include <errno.h>
#include <pthread.h>

static pthread_rwlock_t lock = PTHREAD_RWLOCK_INITIALIZER;
static int count;

static struct timespec soon(void)
{
    struct timespec time;
    clock_gettime(CLOCK_REALTIME, &time);
    time.tv_sec++;
    return time;
}

static void *add(void *argument)
{
    for (int i = 0; i < 4; i++) {
        assert(pthread_rwlock_rdlock(&lock) == 0);
        int found = count;
        sched_yield();
        assert(count == found);
        assert(pthread_rwlock_unlock(&lock) == 0);
        assert(pthread_rwlock_wrlock(&lock) == 0);
        found = count;
        sched_yield();
        count = found + 1;
        assert(pthread_rwlock_unlock(&lock) == 0);
    }
    return argument;
}

static void *find_read(void *argument)
{
    struct timespec time = soon();
    assert(pthread_rwlock_trywrlock(&lock) == EBUSY);
    assert(pthread_rwlock_timedwrlock(&lock, &time) == ETIMEDOUT);
    assert(pthread_rwlock_destroy(&lock) == EBUSY);
    assert(pthread_rwlock_rdlock(&lock) == 0);
    assert(pthread_rwlock_tryrdlock(&lock) == 0);
    assert(pthread_rwlock_timedrdlock(&lock, &time) == 0);
    for (int i = 0; i < 3; i++) {
        assert(pthread_rwlock_unlock(&lock) == 0);
    }
    assert(pthread_rwlock_trywrlock(&lock) == EBUSY);
    return argument;
}

static void *find_written(void *argument)
{
    struct timespec time = soon();
    assert(pthread_rwlock_trywrlock(&lock) == EBUSY);
    assert(pthread_rwlock_tryrdlock(&lock) == EBUSY);
    assert(pthread_rwlock_timedwrlock(&lock, &time) == ETIMEDOUT);
    time = soon();
    assert(pthread_rwlock_timedrdlock(&lock, &time) == ETIMEDOUT);
    return argument;
}

static void run(void *(*start)(void *), int count)
{
    pthread_t threads[3];
    for (int i = 0; i < count; i++) {
        assert(pthread_create(&threads[i], NULL, start, NULL) == 0);
    }
    for (int i = 0; i < count; i++) {
        assert(pthread_join(threads[i], NULL) == 0);
    }
}

int main(void)
{
    struct timespec time = soon();
    run(add, 3);
    assert(count == 12);
    lock.holders = 5;
    assert(pthread_rwlock_init(&lock, NULL) == 0);
    assert(pthread_rwlock_tryrdlock(&lock) == 0);
    run(find_read, 1);
    assert(pthread_rwlock_unlock(&lock) == 0);
    assert(pthread_rwlock_trywrlock(&lock) == 0);
    run(find_written, 1);
    assert(pthread_rwlock_unlock(&lock) == 0);
    assert(pthread_rwlock_timedwrlock(&lock, &time) == 0);
    run(find_written, 1);
    assert(pthread_rwlock_unlock(&lock) == 0);
    assert(pthread_rwlock_destroy(&lock) == 0);
    return 0;
}
