/* exit in a thread ends main, which waits, and the harts without a thread. Ends with 3. */
#include <pthread.h>
#include <stdlib.h>

static void *work(void *argument)
{
    (void)argument;
    exit(3);
}

int main(void)
{
    pthread_t thread;
    pthread_create(&thread, NULL, work, NULL);
    pthread_join(thread, NULL);
    return 4;
}
