/* Mutexes: normal, recursive and error-checking ones. Ends with 0. */
#include <assert.h>
#include <errno.h>
#include <pthread.h>

static pthread_mutex_t normal = PTHREAD_MUTEX_INITIALIZER, recursive, checking;
static int count;

static struct timespec soon(void)
{
    struct timespec time;
    clock_gettime(CLOCK_REALTIME, &time);
    time.tv_sec++;
    return time;
}

static void *add(void *argument)
{
    for (int i = 0; i < 5; i++) {
        assert(pthread_mutex_lock(&normal) == 0);
        int found = count;
        sched_yield();
        count = found + 1;
        assert(pthread_mutex_unlock(&normal) == 0);
    }
    return argument;
}

/* What another thread finds of mutexes that main holds. */
static void *find(void *held)
{
    struct timespec time = soon();
    int error = held != NULL ? EBUSY : 0;
    assert(pthread_mutex_trylock(&normal) == error);
    assert(pthread_mutex_trylock(&recursive) == error);
    assert(pthread_mutex_trylock(&checking) == error);
    if (held != NULL) {
        assert(pthread_mutex_unlock(&checking) == EPERM);
        assert(pthread_mutex_unlock(&recursive) == EPERM);
        assert(pthread_mutex_timedlock(&normal, &time) == ETIMEDOUT);
        time.tv_nsec = -1;
        assert(pthread_mutex_timedlock(&normal, &time) == EINVAL);
    } else {
        assert(pthread_mutex_unlock(&normal) == 0);
        assert(pthread_mutex_timedlock(&normal, &time) == 0);
        assert(pthread_mutex_unlock(&normal) == 0);
        assert(pthread_mutex_unlock(&recursive) == 0);
        assert(pthread_mutex_unlock(&checking) == 0);
    }
    return NULL;
}

static void run(void *(*start)(void *), void *argument, int count)
{
    pthread_t threads[3];
    for (int i = 0; i < count; i++) {
        assert(pthread_create(&threads[i], NULL, start, argument) == 0);
    }
    for (int i = 0; i < count; i++) {
        assert(pthread_join(threads[i], NULL) == 0);
    }
}

int main(void)
{
    pthread_mutexattr_t attr;
    int kind;
    run(add, NULL, 3);
    assert(count == 15);
    assert(pthread_mutexattr_init(&attr) == 0);
    assert(pthread_mutexattr_settype(&attr, PTHREAD_MUTEX_RECURSIVE) == 0);
    assert(pthread_mutex_init(&recursive, &attr) == 0);
    assert(pthread_mutexattr_settype(&attr, PTHREAD_MUTEX_ERRORCHECK) == 0);
    assert(pthread_mutexattr_gettype(&attr, &kind) == 0 && kind == PTHREAD_MUTEX_ERRORCHECK);
    checking.owner = 7;
    assert(pthread_mutex_init(&checking, &attr) == 0);
    assert(pthread_mutex_lock(&normal) == 0);
    assert(pthread_mutex_lock(&recursive) == 0);
    assert(pthread_mutex_lock(&recursive) == 0);
    assert(pthread_mutex_lock(&checking) == 0);
    assert(pthread_mutex_lock(&checking) == EDEADLK);
    assert(pthread_mutex_trylock(&checking) == EBUSY);
    assert(pthread_mutex_destroy(&checking) == EBUSY);
    assert(pthread_mutex_unlock(&recursive) == 0);
    run(find, &attr, 1);
    assert(pthread_mutex_unlock(&normal) == 0);
    assert(pthread_mutex_unlock(&recursive) == 0);
    assert(pthread_mutex_unlock(&checking) == 0);
    run(find, NULL, 1);
    assert(pthread_mutex_destroy(&checking) == 0);
    assert(pthread_mutexattr_destroy(&attr) == 0);
    return 0;
}
