/* A queue of numbers for any harts that put and any that take, in an array and without a lock. MISTAKE is 0, or one of four mistakes (queue.c). */
#ifndef QUEUE_H
#define QUEUE_H

#include <stdatomic.h>
#include <stdbool.h>

#ifndef MISTAKE
#define MISTAKE 0
#endif

#define CELLS 4

/* A cell may be filled for the place `turn`, and holds the number of place `turn - 1` once it is filled. */
struct cell {
    atomic_uint turn;
    unsigned number;
};

struct queue {
    struct cell cells[CELLS];
    /* How many places were given to those that put, and to those that take. */
    atomic_uint put, taken;
#if MISTAKE == 3
    unsigned length;
#else
    atomic_uint length;
#endif
};

#define EMPTY_QUEUE {.cells = {{.turn = 0}, {.turn = 1}, {.turn = 2}, {.turn = 3}}}

/* Puts a number in, unless the queue is full. */
bool queue_put(struct queue *queue, unsigned number);

/* Takes a number out, unless the queue is empty. */
bool queue_take(struct queue *queue, unsigned *number);

/* How many numbers were put in and not taken out, at a moment when nobody puts one in. */
unsigned queue_length(struct queue *queue);

#endif
