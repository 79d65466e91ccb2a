/* POSIX threads for guests of rvcollide: each thread has a hart of its own. threads.c has the calls. */
#ifndef THREADS_PTHREAD_H
#define THREADS_PTHREAD_H

#include <sched.h>
#include <stddef.h>
#include <time.h>

#define PTHREAD_KEYS_MAX 32
#define PTHREAD_DESTRUCTOR_ITERATIONS 4
#define PTHREAD_STACK_MIN 16384

typedef unsigned long pthread_t;
typedef unsigned pthread_key_t;
typedef volatile unsigned pthread_once_t;
typedef volatile unsigned pthread_spinlock_t;

typedef struct {
    int detached;
    size_t stack_size;
} pthread_attr_t;

typedef struct {
    volatile unsigned owner, depth, kind;
} pthread_mutex_t;

typedef struct {
    int kind;
} pthread_mutexattr_t;

/* A condition has no state of its own: each hart says which one it waits for. */
typedef struct {
    volatile unsigned unused;
} pthread_cond_t;

/* How many hold the lock to read; all ones where one holds it to write. */
typedef struct {
    volatile unsigned holders;
} pthread_rwlock_t;

typedef struct {
    volatile unsigned needed, arrived, round;
} pthread_barrier_t;

typedef struct {
    int unused;
} pthread_condattr_t, pthread_rwlockattr_t, pthread_barrierattr_t;

enum { PTHREAD_CREATE_JOINABLE, PTHREAD_CREATE_DETACHED };
enum { PTHREAD_PROCESS_PRIVATE, PTHREAD_PROCESS_SHARED };
enum {
    PTHREAD_MUTEX_NORMAL,
    PTHREAD_MUTEX_RECURSIVE,
    PTHREAD_MUTEX_ERRORCHECK,
    PTHREAD_MUTEX_DEFAULT = PTHREAD_MUTEX_NORMAL
};

#define PTHREAD_MUTEX_RECURSIVE_NP PTHREAD_MUTEX_RECURSIVE
#define PTHREAD_MUTEX_ERRORCHECK_NP PTHREAD_MUTEX_ERRORCHECK
#define PTHREAD_ONCE_INIT 0
#define PTHREAD_MUTEX_INITIALIZER {0, 0, PTHREAD_MUTEX_NORMAL}
#define PTHREAD_RECURSIVE_MUTEX_INITIALIZER_NP {0, 0, PTHREAD_MUTEX_RECURSIVE}
#define PTHREAD_ERRORCHECK_MUTEX_INITIALIZER_NP {0, 0, PTHREAD_MUTEX_ERRORCHECK}
#define PTHREAD_COND_INITIALIZER {0}
#define PTHREAD_RWLOCK_INITIALIZER {0}
#define PTHREAD_BARRIER_SERIAL_THREAD (-1)

int pthread_create(pthread_t *thread, const pthread_attr_t *attr, void *(*start)(void *), void *argument);
int pthread_join(pthread_t thread, void **value);
int pthread_detach(pthread_t thread);
pthread_t pthread_self(void);
_Noreturn void pthread_exit(void *value);
int pthread_once(pthread_once_t *once, void (*start)(void));
static inline int pthread_equal(pthread_t one, pthread_t other) { return one == other; }

static inline int pthread_attr_init(pthread_attr_t *attr) { return attr->detached = 0, attr->stack_size = 65536, 0; }
static inline int pthread_attr_destroy(pthread_attr_t *attr) { return (void)attr, 0; }
static inline int pthread_attr_setdetachstate(pthread_attr_t *attr, int detached) { return attr->detached = detached, 0; }
static inline int pthread_attr_getdetachstate(const pthread_attr_t *attr, int *detached) { return *detached = attr->detached, 0; }
/* A stack is always of 65,536 bytes. */
static inline int pthread_attr_setstacksize(pthread_attr_t *attr, size_t size) { return attr->stack_size = size, 0; }
static inline int pthread_attr_getstacksize(const pthread_attr_t *attr, size_t *size) { return *size = attr->stack_size, 0; }

int pthread_key_create(pthread_key_t *key, void (*destructor)(void *));
int pthread_key_delete(pthread_key_t key);
int pthread_setspecific(pthread_key_t key, const void *value);
void *pthread_getspecific(pthread_key_t key);

static inline int pthread_mutexattr_init(pthread_mutexattr_t *attr) { return attr->kind = PTHREAD_MUTEX_DEFAULT, 0; }
static inline int pthread_mutexattr_destroy(pthread_mutexattr_t *attr) { return (void)attr, 0; }
static inline int pthread_mutexattr_settype(pthread_mutexattr_t *attr, int kind) { return attr->kind = kind, 0; }
static inline int pthread_mutexattr_gettype(const pthread_mutexattr_t *attr, int *kind) { return *kind = attr->kind, 0; }
int pthread_mutex_init(pthread_mutex_t *mutex, const pthread_mutexattr_t *attr);
int pthread_mutex_destroy(pthread_mutex_t *mutex);
int pthread_mutex_lock(pthread_mutex_t *mutex);
int pthread_mutex_trylock(pthread_mutex_t *mutex);
int pthread_mutex_timedlock(pthread_mutex_t *mutex, const struct timespec *until);
int pthread_mutex_unlock(pthread_mutex_t *mutex);

static inline int pthread_condattr_init(pthread_condattr_t *attr) { return attr->unused = 0, 0; }
static inline int pthread_condattr_destroy(pthread_condattr_t *attr) { return (void)attr, 0; }
static inline int pthread_condattr_setclock(pthread_condattr_t *attr, clockid_t clock) { return (void)attr, (void)clock, 0; }
static inline int pthread_cond_init(pthread_cond_t *cond, const pthread_condattr_t *attr) { return (void)cond, (void)attr, 0; }
static inline int pthread_cond_destroy(pthread_cond_t *cond) { return (void)cond, 0; }
int pthread_cond_wait(pthread_cond_t *cond, pthread_mutex_t *mutex);
int pthread_cond_timedwait(pthread_cond_t *cond, pthread_mutex_t *mutex, const struct timespec *until);
int pthread_cond_signal(pthread_cond_t *cond);
int pthread_cond_broadcast(pthread_cond_t *cond);

int pthread_rwlock_init(pthread_rwlock_t *lock, const pthread_rwlockattr_t *attr);
int pthread_rwlock_destroy(pthread_rwlock_t *lock);
int pthread_rwlock_rdlock(pthread_rwlock_t *lock);
int pthread_rwlock_tryrdlock(pthread_rwlock_t *lock);
int pthread_rwlock_timedrdlock(pthread_rwlock_t *lock, const struct timespec *until);
int pthread_rwlock_wrlock(pthread_rwlock_t *lock);
int pthread_rwlock_trywrlock(pthread_rwlock_t *lock);
int pthread_rwlock_timedwrlock(pthread_rwlock_t *lock, const struct timespec *until);
int pthread_rwlock_unlock(pthread_rwlock_t *lock);

int pthread_spin_init(pthread_spinlock_t *lock, int shared);
int pthread_spin_destroy(pthread_spinlock_t *lock);
int pthread_spin_lock(pthread_spinlock_t *lock);
int pthread_spin_trylock(pthread_spinlock_t *lock);
int pthread_spin_unlock(pthread_spinlock_t *lock);

int pthread_barrier_init(pthread_barrier_t *barrier, const pthread_barrierattr_t *attr, unsigned count);
int pthread_barrier_destroy(pthread_barrier_t *barrier);
int pthread_barrier_wait(pthread_barrier_t *barrier);

#endif
