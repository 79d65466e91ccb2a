/* pthread_exit of main: the program goes on until its last thread has gone. Ends with 9. */
#include <pthread.h>
#include <stdlib.h>
#include <unistd.h>

static void *work(void *argument)
{
    sleep(1);
    if (argument != NULL) {
        exit(9);
    }
    return NULL;
}

int main(void)
{
    pthread_t thread;
    pthread_create(&thread, NULL, work, NULL);
    pthread_create(&thread, NULL, work, &thread);
    pthread_exit(NULL);
}
