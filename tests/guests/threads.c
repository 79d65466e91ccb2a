/* pthread_create, join, detach, self, equal, exit, once, sched_yield and sysconf, on four harts. Ends with 0. */
#include <assert.h>
#include <errno.h>
#include <pthread.h>
#include <unistd.h>

static pthread_t threads[4];
static pthread_once_t once = PTHREAD_ONCE_INIT;
static int starts;
static _Thread_local int local = 5;

static void start_once(void)
{
    sleep(1);
    starts++;
}

static void leave_from_within(char *value)
{
    pthread_exit(value + 1);
}

static void *work(void *argument)
{
    long number = (long)argument;
    assert(local == 5);
    local = (int)number;
    assert(pthread_equal(pthread_self(), threads[number]));
    assert(pthread_join(pthread_self(), NULL) == EDEADLK);
    pthread_once(&once, start_once);
    assert(starts == 1);
    assert(sched_yield() == 0);
    assert(local == number);
    leave_from_within(argument);
    return NULL;
}

static void *come_and_go(void *argument) { return argument; }

/* Once what ran there has gone, each hart is free again. */
static void create(pthread_t *thread, const pthread_attr_t *attr)
{
    int error;
    while ((error = pthread_create(thread, attr, come_and_go, NULL)) != 0) {
        assert(error == EAGAIN);
        sched_yield();
    }
}

int main(void)
{
    void *value;
    pthread_attr_t attr;
    size_t size;
    int detached;
    assert(sysconf(_SC_NPROCESSORS_ONLN) == 4);
    for (long i = 0; i < 3; i++) {
        assert(pthread_create(&threads[i], NULL, work, (void *)i) == 0);
    }
    assert(pthread_create(&threads[3], NULL, come_and_go, NULL) == EAGAIN);
    assert(!pthread_equal(threads[0], threads[1]));
    for (long i = 0; i < 3; i++) {
        assert(pthread_join(threads[i], &value) == 0);
        assert((long)value == i + 1);
        assert(pthread_join(threads[i], &value) == ESRCH);
    }
    assert(pthread_attr_init(&attr) == 0);
    assert(pthread_attr_getdetachstate(&attr, &detached) == 0 && detached == PTHREAD_CREATE_JOINABLE);
    assert(pthread_attr_setdetachstate(&attr, PTHREAD_CREATE_DETACHED) == 0);
    assert(pthread_attr_setstacksize(&attr, 32768) == 0);
    assert(pthread_attr_getstacksize(&attr, &size) == 0 && size == 32768);
    for (int i = 0; i < 4; i++) {
        create(&threads[0], &attr);
        assert(pthread_join(threads[0], NULL) != 0);
        create(&threads[1], NULL);
        assert(pthread_detach(threads[1]) == 0);
        assert(pthread_detach(threads[1]) != 0);
    }
    assert(pthread_attr_destroy(&attr) == 0);
    create(&threads[2], NULL);
    assert(!pthread_equal(threads[2], threads[1]));
    assert(pthread_join(threads[2], NULL) == 0);
    assert(starts == 1);
    return 0;
}
