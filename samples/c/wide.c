/* Arithmetic of 64 bits: sums, products, shifts, divisions, comparisons. */
#include "kernel.h"

static void put_wide(u64 number)
{
    put_hex((u32)(number >> 32));
    put_hex((u32)number);
    put("\n");
}

static u64 power(u64 base, u32 exponent)
{
    u64 product = 1;
    for (; exponent; exponent >>= 1, base *= base)
        if (exponent & 1)
            product *= base;
    return product;
}

static u64 root(u64 square)
{
    u64 low = 0, high = 1ull << 32;
    while (low + 1 < high) {
        u64 middle = (low + high) / 2;
        if (middle * middle <= square)
            low = middle;
        else
            high = middle;
    }
    return low;
}

int main(void)
{
    volatile u32 amount = 37;
    u64 big = 0x0123456789ABCDEFull;
    i64 small = -(i64)big;
    put_wide(big + 0xFEDCBA9876543211ull);
    put_wide(big - 0xFEDCBA9876543210ull);
    put_wide(power(3, 40));
    put_wide(power(10, 19) / 7);
    put_wide(power(10, 19) % 1000003);
    put_wide((u64)(small / 1000007));
    put_wide((u64)(small % 1000007));
    put_wide(big << amount);
    put_wide(big >> amount);
    put_wide((u64)(small >> amount));
    put_wide(root(power(7, 22)));
    put_signed(small < 0);
    put_signed(big > 0x7FFFFFFFull);
    put_signed(small > -5);
    put("\n");
    u64 sum = 0;
    for (u32 at = 0; at < 1000; at++)
        sum += (u64)draw() * draw();
    put_wide(sum);
    return (int)(sum % 251);
}
