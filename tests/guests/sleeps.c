/* sleep, usleep, nanosleep and the clock. Ends with 0. */
#include <assert.h>
#include <pthread.h>
#include <time.h>
#include <unistd.h>

static long tenths(void)
{
    struct timespec now;
    assert(clock_gettime(CLOCK_MONOTONIC, &now) == 0);
    return (long)now.tv_sec * 10 + now.tv_nsec / 100000000;
}

int main(void)
{
    struct timespec time = {2, 500000000}, left = {1, 1}, now;
    long begun = tenths();
    assert(sleep(3) == 0);
    long slept = tenths();
    assert(slept - begun >= 30 && slept - begun < 33);
    assert(usleep(1500000) == 0);
    long short_sleep = tenths();
    assert(short_sleep - slept >= 15 && short_sleep - slept < 18);
    assert(nanosleep(&time, &left) == 0);
    assert(left.tv_sec == 0 && left.tv_nsec == 0);
    long after = tenths();
    assert(after - short_sleep >= 25 && after - short_sleep < 28);
    assert(sleep(1000) == 0);
    assert(tenths() - after >= 10000);
    assert(timespec_get(&now, TIME_UTC) == TIME_UTC);
    assert((long)now.tv_sec >= 1000);
    for (long last = tenths(); tenths() < last + 2;) {
    }
    return 0;
}
