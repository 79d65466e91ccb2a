/* What a guest of rvcollide can ask for: two environment calls. */
#ifndef GUEST_H
#define GUEST_H

/* Adds a byte to the output. */
static inline void put_byte(unsigned char byte)
{
    register unsigned a0 __asm__("a0") = byte;
    register unsigned a7 __asm__("a7") = 1;
    __asm__ volatile("ecall" : : "r"(a0), "r"(a7) : "memory");
}

/* Ends this hart with an exit code; the others go on. */
static inline _Noreturn void leave(unsigned code)
{
    register unsigned a0 __asm__("a0") = code;
    register unsigned a7 __asm__("a7") = 93;
    for (;;) {
        __asm__ volatile("ecall" : : "r"(a0), "r"(a7) : "memory");
    }
}

#endif
