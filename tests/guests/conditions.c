/* Conditions: a signal wakes one, a broadcast all, and a time passes. Ends with 0. */
#include <assert.h>
#include <errno.h>
#include <pthread.h>
#include <unistd.h>

static pthread_mutex_t mutex = PTHREAD_MUTEX_INITIALIZER;
static pthread_cond_t come = PTHREAD_COND_INITIALIZER, other = PTHREAD_COND_INITIALIZER;
static int waiting, woken;

static void *wait_for_it(void *argument)
{
    assert(pthread_mutex_lock(&mutex) == 0);
    waiting++;
    assert(pthread_cond_wait(&come, &mutex) == 0);
    woken++;
    assert(pthread_mutex_unlock(&mutex) == 0);
    return argument;
}

static void *signal_it(void *argument)
{
    assert(pthread_mutex_lock(&mutex) == 0);
    assert(pthread_cond_signal(&come) == 0);
    assert(pthread_mutex_unlock(&mutex) == 0);
    return argument;
}

/* Waits until so many have come, and then for a second. */
static void await(int *number, int wanted)
{
    int found;
    do {
        assert(pthread_mutex_lock(&mutex) == 0);
        found = *number;
        assert(pthread_mutex_unlock(&mutex) == 0);
    } while (found < wanted);
    sleep(1);
    assert(pthread_mutex_lock(&mutex) == 0);
    assert(*number == wanted);
    assert(pthread_mutex_unlock(&mutex) == 0);
}

static struct timespec after(int seconds)
{
    struct timespec time;
    clock_gettime(CLOCK_REALTIME, &time);
    time.tv_sec += seconds;
    return time;
}

int main(void)
{
    pthread_t threads[3];
    pthread_condattr_t attr;
    struct timespec time = after(1);
    assert(pthread_condattr_init(&attr) == 0 && pthread_condattr_setclock(&attr, CLOCK_MONOTONIC) == 0);
    assert(pthread_cond_init(&other, &attr) == 0 && pthread_condattr_destroy(&attr) == 0);
    assert(pthread_mutex_lock(&mutex) == 0);
    assert(pthread_cond_timedwait(&come, &mutex, &time) == ETIMEDOUT);
    assert(pthread_mutex_trylock(&mutex) == EBUSY);
    time = after(1000000);
    assert(pthread_create(&threads[0], NULL, signal_it, NULL) == 0);
    assert(pthread_cond_timedwait(&come, &mutex, &time) == 0);
    assert(pthread_mutex_unlock(&mutex) == 0);
    assert(pthread_join(threads[0], NULL) == 0);
    for (int i = 0; i < 3; i++) {
        assert(pthread_create(&threads[i], NULL, wait_for_it, NULL) == 0);
    }
    await(&waiting, 3);
    assert(pthread_cond_signal(&other) == 0);
    assert(pthread_cond_signal(&come) == 0);
    await(&woken, 1);
    assert(pthread_cond_broadcast(&come) == 0);
    await(&woken, 3);
    for (int i = 0; i < 3; i++) {
        assert(pthread_join(threads[i], NULL) == 0);
    }
    assert(pthread_cond_destroy(&come) == 0);
    return 0;
}
