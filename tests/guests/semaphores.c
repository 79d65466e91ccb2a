/* Semaphores. Ends with 0. */
#include <assert.h>
#include <errno.h>
#include <pthread.h>
#include <semaphore.h>
#include <unistd.h>

static sem_t free_slots, filled, lock;
static int slots[2], in, out, sum;

static void *make(void *argument)
{
    for (int i = 1; i <= 4; i++) {
        assert(sem_wait(&free_slots) == 0);
        slots[in++ % 2] = i;
        assert(sem_post(&filled) == 0);
    }
    return argument;
}

static void *take(void *argument)
{
    for (int i = 0; i < 2; i++) {
        assert(sem_wait(&filled) == 0);
        assert(sem_wait(&lock) == 0);
        sum += slots[out++ % 2];
        assert(sem_post(&lock) == 0);
        assert(sem_post(&free_slots) == 0);
    }
    return argument;
}

static void *post(void *argument)
{
    sleep(1);
    assert(sem_post(argument) == 0);
    return NULL;
}

int main(void)
{
    pthread_t threads[3];
    struct timespec time;
    int value;
    assert(sem_init(&free_slots, 0, 2) == 0);
    assert(sem_init(&lock, 0, 1) == 0);
    filled.value = 5;
    assert(sem_init(&filled, 0, 0) == 0);
    assert(pthread_create(&threads[0], NULL, make, NULL) == 0);
    assert(pthread_create(&threads[1], NULL, take, NULL) == 0);
    assert(pthread_create(&threads[2], NULL, take, NULL) == 0);
    for (int i = 0; i < 3; i++) {
        assert(pthread_join(threads[i], NULL) == 0);
    }
    assert(sum == 10);
    assert(sem_getvalue(&free_slots, &value) == 0 && value == 2);
    assert(sem_getvalue(&filled, &value) == 0 && value == 0);
    errno = 0;
    assert(sem_trywait(&filled) == -1 && errno == EAGAIN);
    assert(sem_trywait(&free_slots) == 0);
    assert(sem_getvalue(&free_slots, &value) == 0 && value == 1);
    clock_gettime(CLOCK_REALTIME, &time);
    time.tv_sec++;
    assert(sem_timedwait(&filled, &time) == -1 && errno == ETIMEDOUT);
    time.tv_sec += 1000000;
    assert(pthread_create(&threads[0], NULL, post, &filled) == 0);
    assert(sem_timedwait(&filled, &time) == 0);
    assert(pthread_join(threads[0], NULL) == 0);
    assert(sem_destroy(&filled) == 0);
    return 0;
}
