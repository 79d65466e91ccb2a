/* Threads that look numbers up in a hash table of liburcu while others take entries out, fill them in anew and put them back: its lock-free table, its grace periods
   of quiescent states, and POSIX threads by ../c/threads. A thread that finds an entry whose words don't agree ends the program with 1. BROKEN: a writer
   fills an entry in without waiting for a grace period, while readers may still look at it. */
#define _LGPL_SOURCE
#include <pthread.h>
#include <stdlib.h>
#include <unistd.h>
#include <urcu-qsbr.h>
#include <urcu/rculfhash.h>

#define ROUNDS 3
#define BUCKETS 4
#define WORDS 8

struct entry {
    unsigned key, words[WORDS];
    struct cds_lfht_node node;
};

static struct cds_lfht *table;
/* Each writer has entries of its own: one of an even thread. */
static struct entry entries[16];

static int has_key(struct cds_lfht_node *node, const void *key)
{
    return caa_container_of(node, struct entry, node)->key == *(const unsigned *)key;
}

static void fill_in(struct entry *entry, unsigned key)
{
    entry->key = key;
    for (unsigned at = 0; at < WORDS; at++) {
        entry->words[at] = key + at;
    }
    cds_lfht_node_init(&entry->node);
}

/* The key is its own hash. */
static void add(struct entry *entry)
{
    rcu_read_lock();
    cds_lfht_add(table, entry->key, &entry->node);
    rcu_read_unlock();
}

static __attribute__((noinline)) void look_up(unsigned key)
{
    struct cds_lfht_iter found;
    rcu_read_lock();
    cds_lfht_lookup(table, key, has_key, &key, &found);
    struct cds_lfht_node *node = cds_lfht_iter_get_node(&found);
    if (node != NULL) {
        struct entry *entry = caa_container_of(node, struct entry, node);
        for (unsigned at = 0; at < WORDS; at++) {
            if (entry->words[at] != key + at) {
                exit(1);
            }
        }
    }
    rcu_read_unlock();
}

static __attribute__((noinline)) void change(struct entry *entry, unsigned key)
{
    rcu_read_lock();
    cds_lfht_del(table, &entry->node);
    rcu_read_unlock();
#ifndef BROKEN
    synchronize_rcu();
#endif
    fill_in(entry, key);
    add(entry);
}

/* A writer's keys are its number, 16 more, and so on in turn. */
static void *work(void *argument)
{
    unsigned self = (unsigned)argument;
    rcu_register_thread();
    for (unsigned round = 1; round <= ROUNDS; round++) {
        if (self % 2 == 0) {
            change(&entries[self], self + 16 * (round % 2));
        } else {
            for (unsigned key = 0; key < 32; key += 2) {
                look_up(key);
            }
        }
        rcu_quiescent_state();
    }
    rcu_unregister_thread();
    return NULL;
}

int main(void)
{
    unsigned threads = (unsigned)sysconf(_SC_NPROCESSORS_ONLN);
    pthread_t thread[16];
    table = cds_lfht_new(BUCKETS, BUCKETS, BUCKETS, 0, NULL);
    rcu_register_thread();
    for (unsigned self = 0; self < threads; self += 2) {
        fill_in(&entries[self], self);
        add(&entries[self]);
    }
    rcu_unregister_thread();
    for (unsigned self = 1; self < threads; self++) {
        pthread_create(&thread[self], NULL, work, (void *)self);
    }
    work((void *)0);
    for (unsigned self = 1; self < threads; self++) {
        pthread_join(thread[self], NULL);
    }
    return 0;
}
