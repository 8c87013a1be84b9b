/* The primes below 10000, by the sieve of Eratosthenes over bits. */
#include "kernel.h"

#define LIMIT 10000

static u32 crossed[LIMIT / 32 + 1];

static int is_crossed(u32 number)
{
    return crossed[number / 32] >> number % 32 & 1;
}

int main(void)
{
    u32 count = 0, sum = 0, last = 0;
    for (u32 number = 2; number < LIMIT; number++) {
        if (is_crossed(number))
            continue;
        count++;
        sum += number;
        last = number;
        for (u32 multiple = number * number; multiple < LIMIT; multiple += number)
            crossed[multiple / 32] |= 1u << multiple % 32;
    }
    put_line("count", count);
    put_line("sum", sum);
    put_line("last", last);
    return (int)(count & 255);
}
