/* main returns, and a thread of C11 that yields again and again ends too. Ends with 4. */
#include <threads.h>

static int work(void *argument)
{
    for (;;) {
        thrd_yield();
    }
    return argument != NULL;
}

int main(void)
{
    thrd_t thread;
    thrd_create(&thread, work, NULL);
    return 4;
}
