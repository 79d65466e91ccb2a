/* A barrier of four. Ends with 0. */
#include <assert.h>
#include <errno.h>
#include <pthread.h>

static pthread_barrier_t barrier;
static int come[4], serial[4];

static void *work(void *argument)
{
    long number = (long)argument;
    for (int round = 1; round <= 3; round++) {
        come[number] = round;
        int answer = pthread_barrier_wait(&barrier);
        assert(answer == 0 || answer == PTHREAD_BARRIER_SERIAL_THREAD);
        serial[number] += answer == PTHREAD_BARRIER_SERIAL_THREAD;
        for (int i = 0; i < 4; i++) {
            assert(come[i] == round);
        }
        pthread_barrier_wait(&barrier);
    }
    return NULL;
}

int main(void)
{
    pthread_t threads[4];
    barrier.arrived = 1;
    assert(pthread_barrier_init(&barrier, NULL, 0) == EINVAL);
    assert(pthread_barrier_init(&barrier, NULL, 4) == 0);
    for (long i = 1; i < 4; i++) {
        assert(pthread_create(&threads[i], NULL, work, (void *)i) == 0);
    }
    work(0);
    for (int i = 1; i < 4; i++) {
        assert(pthread_join(threads[i], NULL) == 0);
    }
    assert(serial[0] + serial[1] + serial[2] + serial[3] == 3);
    assert(pthread_barrier_destroy(&barrier) == 0);
    barrier.arrived = 1;
    assert(pthread_barrier_destroy(&barrier) == EBUSY);
    return 0;
}
