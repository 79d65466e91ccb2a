#include "queue.h"

/* MISTAKE 1: a cell is announced before its number is in it.
   MISTAKE 2: who puts looks which place is next and takes it, in two steps, so that two may take the same.
   MISTAKE 3: the length is counted without atomics, so that a count may be lost.
   MISTAKE 4: who takes from an empty queue waits for a number, where it should answer that there is none. After the last one it waits for ever. */

/* Gives the next place to the caller, unless another came first; `place` is then the one that is next now. */
static bool get_place(atomic_uint *next, unsigned *place)
{
    return atomic_compare_exchange_strong(next, place, *place + 1);
}

bool queue_put(struct queue *queue, unsigned number)
{
    unsigned place = atomic_load_explicit(&queue->put, memory_order_relaxed);
    struct cell *cell;
    for (;;) {
        cell = &queue->cells[place % CELLS];
        unsigned turn = atomic_load_explicit(&cell->turn, memory_order_acquire);
        if ((int)(turn - place) < 0) {
            return false;
        }
        if (turn != place) {
            place = atomic_load_explicit(&queue->put, memory_order_relaxed);
#if MISTAKE == 2
        } else {
            atomic_store_explicit(&queue->put, place + 1, memory_order_relaxed);
            break;
#else
        } else if (get_place(&queue->put, &place)) {
            break;
#endif
        }
    }
#if MISTAKE == 3
    queue->length++;
#else
    atomic_fetch_add(&queue->length, 1);
#endif
#if MISTAKE == 1
    atomic_store_explicit(&cell->turn, place + 1, memory_order_release);
    cell->number = number;
#else
    cell->number = number;
    atomic_store_explicit(&cell->turn, place + 1, memory_order_release);
#endif
    return true;
}

bool queue_take(struct queue *queue, unsigned *number)
{
    unsigned place = atomic_load_explicit(&queue->taken, memory_order_relaxed);
    struct cell *cell;
    for (;;) {
        cell = &queue->cells[place % CELLS];
        unsigned turn = atomic_load_explicit(&cell->turn, memory_order_acquire);
        if ((int)(turn - (place + 1)) < 0) {
#if MISTAKE == 4
            continue;
#else
            return false;
#endif
        }
        if (turn != place + 1) {
            place = atomic_load_explicit(&queue->taken, memory_order_relaxed);
        } else if (get_place(&queue->taken, &place)) {
            break;
        }
    }
    *number = cell->number;
    atomic_store_explicit(&cell->turn, place + CELLS, memory_order_release);
#if MISTAKE == 3
    queue->length--;
#else
    atomic_fetch_sub(&queue->length, 1);
#endif
    return true;
}

unsigned queue_length(struct queue *queue)
{
#if MISTAKE == 3
    return *(volatile unsigned *)&queue->length;
#else
    return atomic_load(&queue->length);
#endif
}
