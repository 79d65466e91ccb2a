/* pthread_key_create, key_delete, setspecific and getspecific. Ends with 0. */
#include <assert.h>
#include <errno.h>
#include <pthread.h>

static pthread_key_t first, second;
static long gone[3];

static void destroy(void *value)
{
    long *slot = value;
    assert(pthread_getspecific(first) == NULL);
    if (++*slot == 1) {
        pthread_setspecific(first, value);
    }
}

static void *work(void *argument)
{
    assert(pthread_getspecific(first) == NULL);
    assert(pthread_getspecific(second) == NULL);
    assert(pthread_setspecific(first, &gone[(long)argument]) == 0);
    assert(pthread_setspecific(second, argument) == 0);
    for (int i = 0; i < 3; i++) {
        sched_yield();
        assert(pthread_getspecific(first) == &gone[(long)argument]);
        assert(pthread_getspecific(second) == argument);
    }
    return NULL;
}

int main(void)
{
    pthread_t threads[3];
    pthread_key_t more[PTHREAD_KEYS_MAX];
    assert(pthread_key_create(&first, destroy) == 0);
    assert(pthread_key_create(&second, NULL) == 0);
    assert(pthread_setspecific(second, &second) == 0);
    for (int round = 1; round <= 2; round++) {
        for (long i = 0; i < 3; i++) {
            gone[i] = 0;
            assert(pthread_create(&threads[i], NULL, work, (void *)i) == 0);
        }
        for (int i = 0; i < 3; i++) {
            assert(pthread_join(threads[i], NULL) == 0);
            assert(gone[i] == 2);
        }
    }
    assert(pthread_getspecific(second) == &second);
    assert(pthread_key_delete(second) == 0);
    assert(pthread_key_delete(second) == EINVAL);
    assert(pthread_setspecific(second, &second) == EINVAL);
    assert(pthread_key_create(&second, NULL) == 0);
    assert(pthread_getspecific(second) == NULL);
    for (int i = 2; i < PTHREAD_KEYS_MAX; i++) {
        assert(pthread_key_create(&more[i], NULL) == 0);
        assert(more[i] != first && more[i] != second);
    }
    assert(pthread_key_create(&more[0], NULL) == EAGAIN);
    return 0;
}
