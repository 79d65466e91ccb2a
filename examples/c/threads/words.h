/* Words that harts share, touched by LR, SC and AMO alone: no hart is ever paused there. */
#ifndef THREADS_WORDS_H
#define THREADS_WORDS_H

typedef volatile unsigned word;

static inline unsigned get(word *at)
{
    unsigned found;
    __asm__ volatile("lr.w.aqrl %0, (%1)" : "=r"(found) : "r"(at) : "memory");
    return found;
}

static inline unsigned swap(word *at, unsigned value)
{
    unsigned found;
    __asm__ volatile("amoswap.w.aqrl %0, %2, (%1)" : "=r"(found) : "r"(at), "r"(value) : "memory");
    return found;
}

static inline unsigned add(word *at, unsigned value)
{
    unsigned found;
    __asm__ volatile("amoadd.w.aqrl %0, %2, (%1)" : "=r"(found) : "r"(at), "r"(value) : "memory");
    return found;
}

/* Puts a new value where the old one is, and answers what was there; where that is another, nothing is stored. */
static inline unsigned replace(word *at, unsigned old, unsigned value)
{
    unsigned found, failed;
    __asm__ volatile("1: lr.w.aqrl %0, (%2)\n\tbne %0, %3, 2f\n\tsc.w.aqrl %1, %4, (%2)\n\tbnez %1, 1b\n2:"
                     : "=&r"(found), "=&r"(failed)
                     : "r"(at), "r"(old), "r"(value)
                     : "memory");
    return found;
}

/* A pointer as a word, and back. */
static inline unsigned of_pointer(const void *pointer) { return (unsigned)(unsigned long)pointer; }
static inline void *to_pointer(unsigned value) { return (void *)(unsigned long)value; }

#endif
