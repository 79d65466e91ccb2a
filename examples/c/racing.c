/* Every hart sums up a table that whoever comes first fills in. The bug: `filled` is set before the table is filled, so
   another hart may add up entries that aren't there yet. */
#include <stdatomic.h>

#include "guest.h"

#define ENTRIES 8
#define ROUNDS 10

static atomic_uint filled;
static unsigned table[ENTRIES];

/* A statistic without a lock, which may lose a count. */
static volatile unsigned rounds;

static void fill(void)
{
    for (unsigned i = 0; i < ENTRIES; i++) {
        table[i] = 1u << i;
    }
}

static unsigned sum_up(void)
{
    unsigned sum = 0;
    for (unsigned i = 0; i < ENTRIES; i++) {
        sum += table[i];
    }
    return sum;
}

int main(unsigned hart, unsigned harts)
{
    unsigned sum = 0;
    (void)harts;
    for (unsigned round = 0; round < ROUNDS; round++) {
        rounds++;
        if (atomic_exchange(&filled, 1) == 0) {
            fill();
        }
        sum = sum_up();
        if (sum != 255) {
            put_byte('!');
        }
    }
    if (hart == 0) {
        put_byte('.');
    }
    leave(sum);
}
