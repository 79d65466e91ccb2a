/* What liburcu calls and a guest has not: signals. */
#include <signal.h>

int pthread_sigmask(int how, const sigset_t *set, sigset_t *old)
{
    (void)how, (void)set, (void)old;
    return 0;
}
