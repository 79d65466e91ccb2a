/* What picolibc wants of the machine: where a character goes, and how a program ends. */
#include <stdio.h>

#include "../guest.h"

static int put(char character, FILE *file)
{
    (void)file;
    put_byte((unsigned char)character);
    return (unsigned char)character;
}

static FILE console = FDEV_SETUP_STREAM(put, NULL, NULL, _FDEV_SETUP_WRITE);

FILE *const stdout = &console;
FILE *const stderr = &console;

/* A program that ends all its harts takes another. */
__attribute__((weak)) _Noreturn void _exit(int code)
{
    leave((unsigned)code);
}
