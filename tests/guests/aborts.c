/* abort in a thread. Ends with 134 and says: abort, called from 0x */
#include <pthread.h>
#include <stdlib.h>

static void *work(void *argument)
{
    (void)argument;
    abort();
}

int main(void)
{
    pthread_t thread;
    pthread_create(&thread, NULL, work, NULL);
    pthread_join(thread, NULL);
    return 4;
}
