/* An object that is counted: each hart uses it and drops its reference, and whoever drops the last one wipes it. WRONG: a hart drops its reference first, and uses the
   object then, which may be wiped by now. Who finds it wiped exits with 1. */
#include <stdatomic.h>

#define OBJECTS 4
#define WHOLE 7u

struct object {
    atomic_uint references;
    unsigned part[2];
};

static struct object objects[OBJECTS] = {{0, {WHOLE, WHOLE}}, {0, {WHOLE, WHOLE}}, {0, {WHOLE, WHOLE}}, {0, {WHOLE, WHOLE}}};
static atomic_uint begun;

static __attribute__((noinline)) void wipe(struct object *object)
{
    object->part[0] = 0;
    object->part[1] = 0;
}

static __attribute__((noinline)) unsigned use(struct object *object)
{
    return object->part[0] != WHOLE || object->part[1] != WHOLE;
}

static __attribute__((noinline)) void drop(struct object *object)
{
    if (atomic_fetch_sub(&object->references, 1) == 1) {
        wipe(object);
    }
}

int main(unsigned hart, unsigned harts)
{
    unsigned wrong = 0;
    (void)hart;
    /* Every hart has a reference to every object before one is dropped. */
    for (unsigned at = 0; at < OBJECTS; at++) {
        atomic_fetch_add(&objects[at].references, 1);
    }
    atomic_fetch_add(&begun, 1);
    while (atomic_load(&begun) != harts) {
    }
    for (unsigned at = 0; at < OBJECTS; at++) {
#ifdef WRONG
        drop(&objects[at]);
        wrong |= use(&objects[at]);
#else
        wrong |= use(&objects[at]);
        drop(&objects[at]);
#endif
    }
    return (int)wrong;
}
