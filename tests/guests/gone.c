/* pthread_exit of main, and each thread goes: the program ends then. Ends with 0. */
#include <pthread.h>

static void *work(void *argument) { return argument; }

int main(void)
{
    pthread_t thread;
    pthread_create(&thread, NULL, work, NULL);
    pthread_create(&thread, NULL, work, NULL);
    pthread_detach(thread);
    pthread_exit(NULL);
}
