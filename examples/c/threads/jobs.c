/* Workers take jobs from a queue and add up what these give. The bug: whose job was the longest is kept without the lock. */
#include <pthread.h>
#include <stdio.h>
#include <stdlib.h>

#define WORKERS 3
#define JOBS 12

struct job {
    struct job *next;
    unsigned length;
};

static pthread_mutex_t lock = PTHREAD_MUTEX_INITIALIZER;
static pthread_cond_t come = PTHREAD_COND_INITIALIZER;
static struct job *queue;
static int closed;
static unsigned total, longest;

static void put(unsigned length)
{
    struct job *job = malloc(sizeof *job);
    job->length = length;
    pthread_mutex_lock(&lock);
    job->next = queue;
    queue = job;
    pthread_cond_signal(&come);
    pthread_mutex_unlock(&lock);
}

static struct job *take(void)
{
    pthread_mutex_lock(&lock);
    while (queue == NULL && !closed) {
        pthread_cond_wait(&come, &lock);
    }
    struct job *job = queue;
    if (job != NULL) {
        queue = job->next;
    }
    pthread_mutex_unlock(&lock);
    return job;
}

static void *work(void *unused)
{
    struct job *job;
    while ((job = take()) != NULL) {
        unsigned sum = 0;
        for (unsigned i = 1; i <= job->length; i++) {
            sum += i;
        }
        if (job->length > longest) {
            longest = job->length;
        }
        pthread_mutex_lock(&lock);
        total += sum;
        pthread_mutex_unlock(&lock);
        free(job);
    }
    return unused;
}

int main(void)
{
    pthread_t workers[WORKERS];
    int count = 0;
    while (count < WORKERS && pthread_create(&workers[count], NULL, work, NULL) == 0) {
        count++;
    }
    for (unsigned i = 1; i <= JOBS; i++) {
        put(i);
    }
    pthread_mutex_lock(&lock);
    closed = 1;
    pthread_cond_broadcast(&come);
    pthread_mutex_unlock(&lock);
    for (int i = 0; i < count; i++) {
        pthread_join(workers[i], NULL);
    }
    printf("total %u, longest %u\n", total, longest);
    return longest == JOBS ? 0 : 1;
}
