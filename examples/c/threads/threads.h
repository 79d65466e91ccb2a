/* C11's threads for guests of rvcollide, over those of POSIX. */
#ifndef THREADS_THREADS_H
#define THREADS_THREADS_H

#include <errno.h>
#include <pthread.h>
#include <stdlib.h>
#include <time.h>

#undef thread_local
#define thread_local _Thread_local
#define ONCE_FLAG_INIT PTHREAD_ONCE_INIT
#define TSS_DTOR_ITERATIONS PTHREAD_DESTRUCTOR_ITERATIONS

typedef pthread_t thrd_t;
typedef pthread_mutex_t mtx_t;
typedef pthread_cond_t cnd_t;
typedef pthread_key_t tss_t;
typedef pthread_once_t once_flag;
typedef int (*thrd_start_t)(void *);
typedef void (*tss_dtor_t)(void *);

enum { mtx_plain = 0, mtx_recursive = 1, mtx_timed = 2 };
enum { thrd_success, thrd_busy, thrd_error, thrd_nomem, thrd_timedout };

static inline int thrd_answer(int error)
{
    return error == 0 ? thrd_success : error == EBUSY ? thrd_busy : error == ETIMEDOUT ? thrd_timedout : error == EAGAIN ? thrd_nomem : thrd_error;
}

/* An int and a pointer are answered in one register. */
static inline int thrd_create(thrd_t *thread, thrd_start_t start, void *argument)
{
    return thrd_answer(pthread_create(thread, NULL, (void *(*)(void *))(void (*)(void))start, argument));
}

static inline int thrd_join(thrd_t thread, int *code)
{
    void *value;
    int error = pthread_join(thread, &value);
    if (error == 0 && code != NULL) {
        *code = (int)(long)value;
    }
    return thrd_answer(error);
}

static inline int thrd_detach(thrd_t thread) { return thrd_answer(pthread_detach(thread)); }
static inline thrd_t thrd_current(void) { return pthread_self(); }
static inline int thrd_equal(thrd_t one, thrd_t other) { return pthread_equal(one, other); }
static inline void thrd_yield(void) { sched_yield(); }
static inline int thrd_sleep(const struct timespec *time, struct timespec *left) { return nanosleep(time, left); }
static inline _Noreturn void thrd_exit(int code) { pthread_exit((void *)(long)code); }

static inline int mtx_init(mtx_t *mutex, int type)
{
    pthread_mutexattr_t attr;
    pthread_mutexattr_init(&attr);
    pthread_mutexattr_settype(&attr, type & mtx_recursive ? PTHREAD_MUTEX_RECURSIVE : PTHREAD_MUTEX_NORMAL);
    return thrd_answer(pthread_mutex_init(mutex, &attr));
}

static inline void mtx_destroy(mtx_t *mutex) { pthread_mutex_destroy(mutex); }
static inline int mtx_lock(mtx_t *mutex) { return thrd_answer(pthread_mutex_lock(mutex)); }
static inline int mtx_trylock(mtx_t *mutex) { return thrd_answer(pthread_mutex_trylock(mutex)); }
static inline int mtx_timedlock(mtx_t *mutex, const struct timespec *until) { return thrd_answer(pthread_mutex_timedlock(mutex, until)); }
static inline int mtx_unlock(mtx_t *mutex) { return thrd_answer(pthread_mutex_unlock(mutex)); }

static inline int cnd_init(cnd_t *cond) { return thrd_answer(pthread_cond_init(cond, NULL)); }
static inline void cnd_destroy(cnd_t *cond) { pthread_cond_destroy(cond); }
static inline int cnd_wait(cnd_t *cond, mtx_t *mutex) { return thrd_answer(pthread_cond_wait(cond, mutex)); }
static inline int cnd_timedwait(cnd_t *cond, mtx_t *mutex, const struct timespec *until) { return thrd_answer(pthread_cond_timedwait(cond, mutex, until)); }
static inline int cnd_signal(cnd_t *cond) { return thrd_answer(pthread_cond_signal(cond)); }
static inline int cnd_broadcast(cnd_t *cond) { return thrd_answer(pthread_cond_broadcast(cond)); }

static inline void call_once(once_flag *once, void (*start)(void)) { pthread_once(once, start); }
static inline int tss_create(tss_t *key, tss_dtor_t destructor) { return thrd_answer(pthread_key_create(key, destructor)); }
static inline void tss_delete(tss_t key) { pthread_key_delete(key); }
static inline int tss_set(tss_t key, void *value) { return thrd_answer(pthread_setspecific(key, value)); }
static inline void *tss_get(tss_t key) { return pthread_getspecific(key); }

#endif
