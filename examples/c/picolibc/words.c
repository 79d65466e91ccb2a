/* Harts cut lines into words, from one that they pick with `rand` on, and count how often a word is the one that came last, from any hart. The bug: `last` is read and
   written without a lock, so a hart may compare with a word that another one is still copying. */
#include <stdatomic.h>
#include <stdio.h>
#include <stdlib.h>
#include <string.h>

#define ROUNDS 10

static const char *const lines[4] = {"load store load", "store fence", "fence load amo", "amo amo store"};

static char last[8];
static atomic_uint repeats;

static void note(const char *word)
{
    if (strcmp(last, word) == 0) {
        atomic_fetch_add(&repeats, 1);
    } else {
        strcpy(last, word);
    }
}

int main(unsigned hart, unsigned harts)
{
    (void)harts;
    srand(hart);
    unsigned first = (unsigned)rand();
    for (unsigned round = 0; round < ROUNDS; round++) {
        char line[16];
        strcpy(line, lines[(first + round) % 4]);
        for (char *word = strtok(line, " "); word; word = strtok(NULL, " ")) {
            note(word);
        }
    }
    if (hart == 0) {
        printf("%u words came twice\n", atomic_load(&repeats));
    }
    return 0;
}
