/* C11's threads.h. Ends with 0. */
#include <assert.h>
#include <threads.h>

static mtx_t mutex, recursive;
static cnd_t come, all;
static tss_t key;
static once_flag once = ONCE_FLAG_INIT;
static thrd_t threads[3];
static int count, starts, waiting, gone;
static thread_local int local = 3;

static void start(void) { starts++; }

static void destroy(void *value)
{
    mtx_lock(&mutex);
    gone += *(int *)value;
    mtx_unlock(&mutex);
}

static struct timespec soon(void)
{
    struct timespec time;
    timespec_get(&time, TIME_UTC);
    time.tv_sec++;
    return time;
}

static int work(void *argument)
{
    long number = (long)argument;
    assert(thrd_equal(thrd_current(), threads[number]));
    assert(local++ == 3);
    assert(tss_get(key) == NULL);
    assert(tss_set(key, &local) == thrd_success);
    call_once(&once, start);
    for (int i = 0; i < 4; i++) {
        assert(mtx_lock(&mutex) == thrd_success);
        int found = count;
        thrd_yield();
        count = found + 1;
        assert(mtx_unlock(&mutex) == thrd_success);
        thrd_yield();
    }
    assert(mtx_lock(&mutex) == thrd_success);
    waiting++;
    assert(cnd_signal(&come) == thrd_success);
    assert(cnd_wait(&all, &mutex) == thrd_success);
    assert(mtx_unlock(&mutex) == thrd_success);
    assert(tss_get(key) == &local && starts == 1);
    if (number == 2) {
        thrd_exit(-7);
    }
    return (int)number + 5;
}

static int find(void *argument)
{
    struct timespec time = soon();
    (void)argument;
    assert(mtx_trylock(&recursive) == thrd_busy);
    assert(mtx_timedlock(&recursive, &time) == thrd_timedout);
    return 0;
}

int main(void)
{
    int code;
    assert(mtx_init(&mutex, mtx_plain) == thrd_success);
    assert(mtx_init(&recursive, mtx_timed | mtx_recursive) == thrd_success);
    assert(cnd_init(&come) == thrd_success && cnd_init(&all) == thrd_success);
    assert(tss_create(&key, destroy) == thrd_success);
    for (long i = 0; i < 3; i++) {
        assert(thrd_create(&threads[i], work, (void *)i) == thrd_success);
    }
    thrd_t none;
    assert(thrd_create(&none, work, NULL) == thrd_nomem);
    assert(!thrd_equal(threads[0], threads[1]));
    assert(mtx_lock(&mutex) == thrd_success);
    while (waiting < 3) {
        assert(cnd_wait(&come, &mutex) == thrd_success);
    }
    assert(count == 12);
    assert(cnd_broadcast(&all) == thrd_success);
    assert(mtx_unlock(&mutex) == thrd_success);
    for (int i = 0; i < 3; i++) {
        assert(thrd_join(threads[i], &code) == thrd_success);
        assert(code == (i == 2 ? -7 : i + 5));
    }
    assert(gone == 12);
    assert(mtx_lock(&recursive) == thrd_success && mtx_trylock(&recursive) == thrd_success);
    assert(mtx_unlock(&recursive) == thrd_success);
    assert(thrd_create(&threads[0], find, NULL) == thrd_success);
    assert(thrd_join(threads[0], NULL) == thrd_success);
    assert(thrd_join(threads[0], NULL) == thrd_error);
    assert(mtx_unlock(&recursive) == thrd_success);
    assert(mtx_lock(&mutex) == thrd_success);
    struct timespec until = soon();
    assert(cnd_timedwait(&come, &mutex, &until) == thrd_timedout);
    assert(mtx_unlock(&mutex) == thrd_success);
    until = soon();
    assert(thrd_sleep(&until, NULL) == 0);
    assert(soon().tv_sec > until.tv_sec);
    tss_delete(key);
    assert(tss_set(key, &key) == thrd_error);
    assert(thrd_create(&threads[0], find, NULL) == thrd_success);
    assert(thrd_detach(threads[0]) == thrd_success);
    assert(thrd_join(threads[0], NULL) == thrd_error);
    mtx_destroy(&mutex);
    cnd_destroy(&come);
    return 0;
}
