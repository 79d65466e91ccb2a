/* Products, quotients and remainders of 64 bits, which a machine of 32 bits has no instructions for. GCC writes `mul` and
   `mulhu` for a product, and calls `__udivdi3`, `__umoddi3`, `__divdi3` and `__moddi3` of its own library for the rest. Hart
   0 prints a factorial; each hart exits with the number of its checks that failed, which is 0. */
#include "guest.h"

typedef unsigned long long u64;
typedef long long i64;

#define FACTORIAL 20

/* A number in decimal digits. */
static void put_number(u64 number)
{
    char digits[20];
    int count = 0;
    do {
        digits[count++] = '0' + number % 10;
        number /= 10;
    } while (number != 0);
    while (count > 0) {
        put_byte(digits[--count]);
    }
}

/* 1, where they differ. */
static unsigned differs(u64 found, u64 wanted)
{
    return found != wanted;
}

/* Volatile, so that the compiler can't work them out. */
static volatile u64 ten_digits = 9876543210ull;
static volatile u64 six_digits = 123456;
static volatile i64 below_zero = -9876543210ll;
static volatile i64 divisor = 123456;
static volatile i64 least = (-9223372036854775807ll) - 1;
static volatile i64 minus_one = -1;
static volatile int seven = 7, minus_two = -2;
static volatile unsigned all_ones = 0xffffffff;

int main(unsigned hart, unsigned harts)
{
    unsigned failed = 0;
    u64 factorial = 1;
    (void)harts;
    for (unsigned factor = 2; factor <= FACTORIAL; factor++) {
        factorial *= factor;
    }
    failed += differs(factorial, 2432902008176640000ull);
    failed += differs(ten_digits * six_digits, 1219318518533760ull);
    failed += differs(ten_digits / six_digits, 80000);
    failed += differs(ten_digits % six_digits, 63210);
    failed += differs(below_zero / divisor, -80000ll);
    failed += differs(below_zero % divisor, -63210ll);
    failed += differs(least * minus_one, 9223372036854775808ull);
    failed += differs((i64)minus_two * seven, -14ll);
    failed += differs((i64)minus_two * all_ones, -8589934590ll);
    failed += differs((u64)all_ones * all_ones, 18446744065119617025ull);
    failed += differs(seven / minus_two, -3);
    failed += differs(seven % minus_two, 1);
    failed += differs(all_ones / 10, 429496729);
    failed += differs(all_ones % (unsigned)seven, 3);
    if (hart == 0) {
        put_number(factorial);
        put_byte('\n');
    }
    leave(failed);
}
