/* What picolibc keeps: the heap has a lock, and so has a file that is opened; errno, rand and strtok are each thread's own; exit runs what atexit was given. Needs picolibc. Ends with 6. */
#include <assert.h>
#include <errno.h>
#include <pthread.h>
#include <stdio.h>
#include <stdlib.h>
#include <string.h>
#include <sys/lock.h>
#include <sys/time.h>
#include <time.h>
#include <unistd.h>

static int drawn[3], written;
static struct __lock *of_file;

static void *work(void *argument)
{
    long number = (long)argument;
    char text[] = "a,b,c", *word = strtok(text, ",");
    errno = (int)number;
    srand(7);
    for (int i = 1; i <= 4; i++) {
        char *bytes = malloc((size_t)(8 * i));
        assert(bytes != NULL);
        memset(bytes, (int)number, (size_t)(8 * i));
        sched_yield();
        for (int k = 0; k < 8 * i; k++) {
            assert(bytes[k] == number);
        }
        free(bytes);
        __lock_acquire(of_file);
        int before = written;
        for (int k = 0; k < 20; k++) {
            sched_yield();
        }
        written = before + 1;
        __lock_release(of_file);
        drawn[number] = rand();
        assert(errno == number);
    }
    word = strtok(NULL, ",");
    assert(strcmp(word, "b") == 0);
    return NULL;
}

static void last(void)
{
    _exit(6);
}

int main(int count, char **words)
{
    pthread_t threads[3];
    struct timeval now;
    assert(count == 1 && strcmp(words[0], "guest") == 0 && words[1] == NULL);
    time_t begun = time(NULL);
    sleep(2);
    assert(gettimeofday(&now, NULL) == 0 && now.tv_sec >= begun + 2);
    __lock_init(of_file);
    for (long i = 0; i < 3; i++) {
        assert(pthread_create(&threads[i], NULL, work, (void *)i) == 0);
    }
    for (int i = 0; i < 3; i++) {
        assert(pthread_join(threads[i], NULL) == 0);
    }
    __lock_close(of_file);
    assert(written == 12);
    assert(drawn[0] == drawn[1] && drawn[1] == drawn[2]);
    printf("%d\n", drawn[0] != 0);
    atexit(last);
    return 4;
}
