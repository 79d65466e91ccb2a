/* Two accounts, each with a lock. A thread moves money one way, another the other way, and each first takes the lock of the account
   that it takes the money from: so each may hold the lock that the other waits for. */
#include <pthread.h>
#include <stddef.h>

struct account {
    pthread_mutex_t lock;
    int balance;
};

static struct account wages = {PTHREAD_MUTEX_INITIALIZER, 50}, savings = {PTHREAD_MUTEX_INITIALIZER, 50};

static void move(struct account *from, struct account *to)
{
    pthread_mutex_lock(&from->lock);
    pthread_mutex_lock(&to->lock);
    from->balance--;
    to->balance++;
    pthread_mutex_unlock(&to->lock);
    pthread_mutex_unlock(&from->lock);
}

static void *save(void *unused)
{
    for (int round = 0; round < 5; round++) {
        move(&wages, &savings);
    }
    return unused;
}

static void *spend(void *unused)
{
    for (int round = 0; round < 5; round++) {
        move(&savings, &wages);
    }
    return unused;
}

int main(void)
{
    pthread_t saver, spender;
    pthread_create(&saver, NULL, save, NULL);
    pthread_create(&spender, NULL, spend, NULL);
    pthread_join(saver, NULL);
    pthread_join(spender, NULL);
    return wages.balance + savings.balance == 100 ? 0 : 1;
}
