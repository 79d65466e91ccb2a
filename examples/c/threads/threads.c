/* Threads for guests of rvcollide: POSIX threads and semaphores. Hart 0 runs main; each other hart waits for a thread to run.
   What harts share here is touched by LR, SC and AMO alone, so nothing of this file is told as a race. A call that has to wait
   looks again and again, by LR and without a store, until it may go on. */
#include <errno.h>
#include <pthread.h>
#include <semaphore.h>
#include <stdlib.h>
#include <time.h>
#include <unistd.h>
#include "../guest.h"
#include "words.h"

/* The words that main gets, as by -DGUEST_WORDS='"guest", "4"'. */
#ifndef GUEST_WORDS
#define GUEST_WORDS "guest"
#endif

/* What waits is inlined: a report of a hart that waits for ever then names the call, such as pthread_mutex_lock, and its caller. */
#define INLINED inline __attribute__((always_inline))

#define HARTS 16u
#define STACK_SIZE 0x10000u
#define SECOND 1000000000u
/* A hart's clock counts the rounds that it waited up to a time or slept: so many a second, of which a sleep makes some at most. */
#define ROUNDS 20u
#define SLEEP_ROUNDS 100u

/* What the thread of a hart is: none; about to be made; running, to be joined or not; at its end, and not joined yet. */
enum { FREE, TAKEN, JOINABLE, DETACHED, ENDED };

struct hart {
    /* Its thread's state, its pthread_t, what it is to run, what it gave, and the condition that it waits for, or 0. */
    word state, id, start, argument, value, waits_for;
    /* What follows only the hart itself touches. */
    unsigned clock, known_keys, made[PTHREAD_KEYS_MAX];
    void *specific[PTHREAD_KEYS_MAX];
};

/* Up to when a hart waits: NULL for ever. */
typedef const struct timespec *moment;

static struct hart harts[HARTS];
/* How many harts there are, how many of 1 to 15 run a thread, and once the program has ended 0x100 and its exit code. */
static word hart_count, running, ending;

extern int main(int argc, char **argv);
extern char __tls_blocks[], __tls_size[], __tdata_start[], __tdata_end[];

/* A hart's stack lies where its number says. */
static inline unsigned own_number(void)
{
    unsigned sp;
    __asm__("mv %0, sp" : "=r"(sp));
    return sp / STACK_SIZE % HARTS;
}
static inline struct hart *own(void) { return &harts[own_number()]; }

/* Each call comes here, and each round of a wait: a hart ends once the program has. */
static INLINED void rest(void)
{
    if (get(&ending) != 0) {
        leave(get(&ending) & 0xff);
    }
}

/* ---- waiting */

static unsigned rounds_of(moment time)
{
    return time->tv_sec < 200000000 ? (unsigned)time->tv_sec * ROUNDS + (unsigned)time->tv_nsec / (SECOND / ROUNDS) : -1u;
}

int nanosleep(const struct timespec *asked, struct timespec *left)
{
    unsigned rounds = rounds_of(asked);
    own()->clock += rounds + 1;
    for (unsigned round = 0; round <= rounds && round < SLEEP_ROUNDS; round++) {
        rest();
    }
    return left != NULL ? *left = (struct timespec){0, 0}, 0 : 0;
}

unsigned sleep(unsigned seconds) { return (unsigned)nanosleep(&(struct timespec){seconds, 0}, NULL); }
int usleep(useconds_t time) { return nanosleep(&(struct timespec){time / 1000000u, (long)(time % 1000000u) * 1000}, NULL); }

int clock_gettime(clockid_t clock, struct timespec *now)
{
    unsigned rounds = ++own()->clock;
    *now = (struct timespec){rounds / ROUNDS, (long)(rounds % ROUNDS * (SECOND / ROUNDS))};
    return rest(), (void)clock, 0;
}

static const struct timespec at_once = {0, -1};

/* Makes an attempt until it answers another thing than EBUSY: again and again, or up to a time, or just once. */
static INLINED int wait_for(int (*attempt)(void *), void *object, moment until)
{
    for (;;) {
        rest();
        int error = attempt(object);
        if (error != EBUSY || until == &at_once) {
            return error;
        }
        if (until != NULL && own()->clock++ >= rounds_of(until)) {
            return until->tv_nsec >= 0 && (unsigned)until->tv_nsec < SECOND ? ETIMEDOUT : EINVAL;
        }
    }
}

static INLINED void wait_while(word *at, unsigned value)
{
    do {
        rest();
    } while (get(at) == value);
}

/* ---- the end of the program */

_Noreturn void _exit(int code)
{
    replace(&ending, 0, 0x100 | ((unsigned)code & 0xff));
    leave(get(&ending) & 0xff);
}

static void print(const char *text)
{
    while (*text != 0) {
        put_byte((unsigned char)*text++);
    }
}

static void print_number(unsigned number, unsigned base)
{
    if (number >= base) {
        print_number(number / base, base);
    }
    put_byte((unsigned char)"0123456789abcdef"[number % base]);
}

_Noreturn void __assert_func(const char *file, int line, const char *function, const char *condition)
{
    print(file), print(":"), print_number((unsigned)line, 10);
    print(": "), print(function), print(": this does not hold: "), print(condition), print("\n");
    _exit(134);
}

_Noreturn void abort(void)
{
    print("abort, called from 0x"), print_number(of_pointer(__builtin_return_address(0)), 16), print("\n");
    _exit(134);
}

/* ---- values of a thread's own: a key is in use where its word is odd, and the word counts how often it was made and deleted */

static word keys[PTHREAD_KEYS_MAX], destructors[PTHREAD_KEYS_MAX];
int pthread_key_create(pthread_key_t *key, void (*destructor)(void *))
{
    rest();
    for (unsigned k = 0; k < PTHREAD_KEYS_MAX; k++) {
        unsigned made = get(&keys[k]);
        if (made % 2 == 0 && replace(&keys[k], made, made + 1) == made) {
            swap(&destructors[k], of_pointer((void *)destructor));
            *key = k;
            return 0;
        }
    }
    return EAGAIN;
}

static int is_key(pthread_key_t key) { return rest(), key < PTHREAD_KEYS_MAX && get(&keys[key]) % 2 == 1; }
int pthread_key_delete(pthread_key_t key) { return is_key(key) ? add(&keys[key], 1), 0 : EINVAL; }

int pthread_setspecific(pthread_key_t key, const void *value)
{
    struct hart *hart = own();
    if (!is_key(key)) {
        return EINVAL;
    }
    while (hart->known_keys <= key) {
        hart->specific[hart->known_keys++] = NULL;
    }
    hart->made[key] = get(&keys[key]);
    hart->specific[key] = (void *)value;
    return 0;
}

void *pthread_getspecific(pthread_key_t key)
{
    struct hart *hart = own();
    return is_key(key) && key < hart->known_keys && hart->made[key] == get(&keys[key]) ? hart->specific[key] : NULL;
}

static void run_destructors(struct hart *hart)
{
    for (unsigned i = 0; i < PTHREAD_DESTRUCTOR_ITERATIONS * hart->known_keys; i++) {
        unsigned key = i % hart->known_keys, destructor = get(&destructors[key]);
        void *value = pthread_getspecific(key);
        hart->specific[key] = NULL;
        if (value != NULL && destructor != 0) {
            ((void (*)(void *))to_pointer(destructor))(value);
        }
    }
    hart->known_keys = 0;
}

/* ---- threads */

/* A thread begins with thread-local variables of its own, in its hart's block. */
static void start_locals(unsigned number)
{
    unsigned size = of_pointer(__tls_size), begun = of_pointer(__tdata_end) - of_pointer(__tdata_start);
    volatile char *block = __tls_blocks + number * size;
    for (unsigned i = 0; i < size; i++) {
        block[i] = i < begun ? __tdata_start[i] : 0;
    }
}

/* What a hart without a thread does: it waits for one, and runs it. */
__attribute__((used)) _Noreturn void threads_serve(unsigned number)
{
    struct hart *hart = &harts[number];
    while (get(&hart->state) != JOINABLE && get(&hart->state) != DETACHED) {
        rest();
    }
    start_locals(number);
    void *(*start)(void *) = (void *(*)(void *))to_pointer(get(&hart->start));
    pthread_exit(start(to_pointer(get(&hart->argument))));
}

__attribute__((used)) _Noreturn void threads_start(unsigned number, unsigned count)
{
    static char *words[] = {GUEST_WORDS, NULL};
    if (number != 0) {
        threads_serve(number);
    }
    start_locals(0);
    swap(&hart_count, count);
    swap(&harts[0].id, HARTS), swap(&harts[0].state, JOINABLE);
    exit(main(sizeof words / sizeof *words - 1, words));
}

/* Where each hart begins: tp points to the hart's block of thread-local variables, and sp lies within its stack. */
__asm__(".section .text.start, \"ax\"\n.globl _start\n_start:\n"
        "    la   t0, __tls_size\n    la   tp, __tls_blocks\n    mv   t1, a0\n"
        "1:  beqz t1, 2f\n    add  tp, tp, t0\n    addi t1, t1, -1\n    j    1b\n"
        "2:  addi sp, sp, -16\n    tail threads_start\n    .text\n");

int pthread_create(pthread_t *thread, const pthread_attr_t *attr, void *(*start)(void *), void *argument)
{
    unsigned count = get(&hart_count), number = 1;
    rest();
    while (number < count && replace(&harts[number].state, FREE, TAKEN) != FREE) {
        number++;
    }
    if (number >= count) {
        return EAGAIN;
    }
    struct hart *hart = &harts[number];
    *thread = (get(&hart->id) | (HARTS - 1)) + 1 + number;
    swap(&hart->id, *thread);
    swap(&hart->start, of_pointer((void *)start)), swap(&hart->argument, of_pointer(argument));
    add(&running, 1);
    swap(&hart->state, attr != NULL && attr->detached ? DETACHED : JOINABLE);
    return 0;
}

_Noreturn void pthread_exit(void *value)
{
    struct hart *hart = own();
    unsigned number = own_number();
    run_destructors(hart);
    swap(&hart->value, of_pointer(value));
    add(&running, number == 0 ? 0 : -1u);
    if (replace(&hart->state, JOINABLE, ENDED) == DETACHED) {
        swap(&hart->state, FREE);
    }
    if (number == 0) {
        while (get(&running) != 0) {
            rest();
        }
        exit(0);
    }
    __asm__ volatile("mv a0, %0\n\tmv sp, %1\n\ttail threads_serve"
                     :
                     : "r"(number), "r"(0xc0000000u + (number + 1) * STACK_SIZE - 16)
                     : "a0", "memory");
    __builtin_unreachable();
}

/* The hart of a thread, until the thread has been joined, or ends detached. */
static struct hart *hart_of(pthread_t thread)
{
    struct hart *hart = &harts[thread % HARTS];
    rest();
    return get(&hart->id) == thread && get(&hart->state) != FREE ? hart : NULL;
}

int pthread_join(pthread_t thread, void **value)
{
    struct hart *hart = hart_of(thread);
    if (hart == NULL || hart == own()) {
        return hart == NULL ? ESRCH : EDEADLK;
    }
    wait_while(&hart->state, JOINABLE);
    if (get(&hart->state) != ENDED) {
        return EINVAL;
    }
    if (value != NULL) {
        *value = to_pointer(get(&hart->value));
    }
    swap(&hart->state, FREE);
    return 0;
}

int pthread_detach(pthread_t thread)
{
    struct hart *hart = hart_of(thread);
    unsigned state = hart != NULL ? replace(&hart->state, JOINABLE, DETACHED) : FREE;
    if (state == ENDED) {
        swap(&hart->state, FREE);
    }
    return state == FREE ? ESRCH : state == DETACHED ? EINVAL : 0;
}

pthread_t pthread_self(void) { return rest(), get(&own()->id); }

int pthread_once(pthread_once_t *once, void (*start)(void))
{
    if (replace(once, 0, 1) == 0) {
        start();
        swap(once, 2);
    }
    wait_while(once, 1);
    return 0;
}

int sched_yield(void) { return rest(), 0; }
long sysconf(int name) { return name == _SC_NPROCESSORS_ONLN ? (long)get(&hart_count) : -1; }

/* ---- mutexes */

int pthread_mutex_init(pthread_mutex_t *mutex, const pthread_mutexattr_t *attr)
{
    swap(&mutex->owner, 0);
    swap(&mutex->depth, 0);
    swap(&mutex->kind, attr != NULL ? (unsigned)attr->kind : PTHREAD_MUTEX_DEFAULT);
    return 0;
}

static INLINED int try_mutex(void *object)
{
    pthread_mutex_t *mutex = object;
    unsigned id = get(&own()->id), kind = get(&mutex->kind), owner = replace(&mutex->owner, 0, id);
    if (owner == 0 || owner != id || kind == PTHREAD_MUTEX_NORMAL) {
        return owner == 0 ? 0 : EBUSY;
    }
    return kind == PTHREAD_MUTEX_RECURSIVE ? add(&mutex->depth, 1), 0 : EDEADLK;
}

int pthread_mutex_destroy(pthread_mutex_t *mutex) { return get(&mutex->owner) == 0 ? 0 : EBUSY; }
int pthread_mutex_lock(pthread_mutex_t *mutex) { return wait_for(try_mutex, mutex, NULL); }
int pthread_mutex_trylock(pthread_mutex_t *mutex) { return wait_for(try_mutex, mutex, &at_once) == 0 ? 0 : EBUSY; }
int pthread_mutex_timedlock(pthread_mutex_t *mutex, moment until) { return wait_for(try_mutex, mutex, until); }

int pthread_mutex_unlock(pthread_mutex_t *mutex)
{
    rest();
    if (get(&mutex->kind) != PTHREAD_MUTEX_NORMAL && get(&mutex->owner) != get(&own()->id)) {
        return EPERM;
    }
    if (get(&mutex->depth) != 0) {
        add(&mutex->depth, -1u);
    } else {
        swap(&mutex->owner, 0);
    }
    return 0;
}

/* ---- conditions: a hart says which one it waits for, and a signal takes that from one hart */

static INLINED int try_woken(void *cond) { return get(&own()->waits_for) == of_pointer(cond) ? EBUSY : 0; }

int pthread_cond_timedwait(pthread_cond_t *cond, pthread_mutex_t *mutex, moment until)
{
    swap(&own()->waits_for, of_pointer(cond));
    int error = pthread_mutex_unlock(mutex);
    if (error == 0) {
        error = wait_for(try_woken, cond, until);
        pthread_mutex_lock(mutex);
    }
    /* Signalled at the last moment, it has not timed out. */
    return swap(&own()->waits_for, 0) == 0 && error == ETIMEDOUT ? 0 : error;
}

int pthread_cond_wait(pthread_cond_t *cond, pthread_mutex_t *mutex) { return pthread_cond_timedwait(cond, mutex, NULL); }

static int wake(pthread_cond_t *cond, unsigned most)
{
    static word first;
    unsigned from = add(&first, 1), woken = 0;
    rest();
    for (unsigned i = 0; i < HARTS && woken < most; i++) {
        woken += replace(&harts[(from + i) % HARTS].waits_for, of_pointer(cond), 0) == of_pointer(cond);
    }
    return 0;
}

int pthread_cond_signal(pthread_cond_t *cond) { return wake(cond, 1); }
int pthread_cond_broadcast(pthread_cond_t *cond) { return wake(cond, HARTS); }

/* ---- locks of readers and writers */

#define WRITER -1u

static INLINED int try_read(void *object)
{
    word *holders = object;
    unsigned found = get(holders);
    return found != WRITER && replace(holders, found, found + 1) == found ? 0 : EBUSY;
}

static INLINED int try_alone(void *object) { return replace(object, 0, WRITER) == 0 ? 0 : EBUSY; }

int pthread_rwlock_init(pthread_rwlock_t *lock, const pthread_rwlockattr_t *attr) { return (void)attr, swap(&lock->holders, 0), 0; }
int pthread_rwlock_destroy(pthread_rwlock_t *lock) { return get(&lock->holders) == 0 ? 0 : EBUSY; }
int pthread_rwlock_rdlock(pthread_rwlock_t *lock) { return wait_for(try_read, (void *)&lock->holders, NULL); }
int pthread_rwlock_tryrdlock(pthread_rwlock_t *lock) { return wait_for(try_read, (void *)&lock->holders, &at_once); }
int pthread_rwlock_wrlock(pthread_rwlock_t *lock) { return wait_for(try_alone, (void *)&lock->holders, NULL); }
int pthread_rwlock_trywrlock(pthread_rwlock_t *lock) { return wait_for(try_alone, (void *)&lock->holders, &at_once); }
int pthread_rwlock_timedrdlock(pthread_rwlock_t *lock, moment until) { return wait_for(try_read, (void *)&lock->holders, until); }
int pthread_rwlock_timedwrlock(pthread_rwlock_t *lock, moment until) { return wait_for(try_alone, (void *)&lock->holders, until); }

int pthread_rwlock_unlock(pthread_rwlock_t *lock)
{
    return rest(), add(&lock->holders, replace(&lock->holders, WRITER, 0) == WRITER ? 0 : -1u), 0;
}

/* ---- spin locks, barriers */

int pthread_spin_init(pthread_spinlock_t *lock, int shared) { return (void)shared, swap(lock, 0), 0; }
int pthread_spin_destroy(pthread_spinlock_t *lock) { return get(lock) == 0 ? 0 : EBUSY; }
int pthread_spin_lock(pthread_spinlock_t *lock) { return wait_for(try_alone, (void *)lock, NULL); }
int pthread_spin_trylock(pthread_spinlock_t *lock) { return wait_for(try_alone, (void *)lock, &at_once); }
int pthread_spin_unlock(pthread_spinlock_t *lock) { return rest(), swap(lock, 0), 0; }

int pthread_barrier_init(pthread_barrier_t *barrier, const pthread_barrierattr_t *attr, unsigned count)
{
    return (void)attr, swap(&barrier->needed, count), swap(&barrier->arrived, 0), count == 0 ? EINVAL : 0;
}

int pthread_barrier_destroy(pthread_barrier_t *barrier) { return get(&barrier->arrived) == 0 ? 0 : EBUSY; }

int pthread_barrier_wait(pthread_barrier_t *barrier)
{
    unsigned round = get(&barrier->round);
    if (add(&barrier->arrived, 1) + 1 == get(&barrier->needed)) {
        swap(&barrier->arrived, 0);
        add(&barrier->round, 1);
        return PTHREAD_BARRIER_SERIAL_THREAD;
    }
    wait_while(&barrier->round, round);
    return 0;
}

/* ---- semaphores */

static INLINED int try_semaphore(void *object)
{
    word *value = object;
    unsigned found = get(value);
    return found != 0 && replace(value, found, found - 1) == found ? 0 : EBUSY;
}

static int told(int error) { return error == 0 ? 0 : (errno = error, -1); }

int sem_init(sem_t *semaphore, int shared, unsigned value) { return (void)shared, swap(&semaphore->value, value), 0; }
int sem_destroy(sem_t *semaphore) { return (void)semaphore, 0; }
int sem_wait(sem_t *semaphore) { return told(wait_for(try_semaphore, (void *)&semaphore->value, NULL)); }
int sem_trywait(sem_t *semaphore) { return told(wait_for(try_semaphore, (void *)&semaphore->value, &at_once) == 0 ? 0 : EAGAIN); }
int sem_post(sem_t *semaphore) { return rest(), add(&semaphore->value, 1), 0; }
int sem_getvalue(sem_t *semaphore, int *value) { return rest(), *value = (int)get(&semaphore->value), 0; }
int sem_timedwait(sem_t *semaphore, moment until) { return told(wait_for(try_semaphore, (void *)&semaphore->value, until)); }

/* ---- what picolibc asks for, or what there is without it */

#ifdef __PICOLIBC__
#include <sys/time.h>
struct __lock { pthread_mutex_t mutex; };
struct __lock __lock___libc_recursive_mutex = {PTHREAD_RECURSIVE_MUTEX_INITIALIZER_NP};

void __retarget_lock_acquire_recursive(struct __lock *lock) { pthread_mutex_lock(&lock->mutex); }
void __retarget_lock_release_recursive(struct __lock *lock) { pthread_mutex_unlock(&lock->mutex); }

/* Each file that a program opens asks for a lock. All have that of the library. */
void __retarget_lock_init(struct __lock **lock) { *lock = &__lock___libc_recursive_mutex; }
void __retarget_lock_close(struct __lock *lock) { (void)lock; }
void __retarget_lock_acquire(struct __lock *lock) { __retarget_lock_acquire_recursive(lock); }
void __retarget_lock_release(struct __lock *lock) { __retarget_lock_release_recursive(lock); }

int gettimeofday(struct timeval *now, void *zone)
{
    struct timespec time;
    clock_gettime(CLOCK_REALTIME, &time);
    return *now = (struct timeval){time.tv_sec, time.tv_nsec / 1000}, (void)zone, 0;
}
#else
_Thread_local int errno;
_Noreturn void exit(int code) { _exit(code); }
#endif
