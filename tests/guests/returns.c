/* main returns, and a thread that calls the library again and again ends too. Ends with 4. */
#include <pthread.h>

static void *work(void *argument)
{
    while (sched_yield() == 0) {
    }
    return argument;
}

int main(void)
{
    pthread_t thread;
    pthread_create(&thread, NULL, work, NULL);
    return 4;
}
