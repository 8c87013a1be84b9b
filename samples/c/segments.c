/* Data in three segments, of which one holds zeros alone, and a code segment that begins behind its headers. */
#include "kernel.h"

static volatile u32 here[8] = { 3, 1, 4, 1, 5, 9, 2, 6 };
static volatile u32 there[8] __attribute__((section(".far"))) = { 2, 7, 1, 8, 2, 8, 1, 8 };
static volatile u32 zeros[1024] __attribute__((section(".zeros,\"aw\",@nobits#")));

int main(void)
{
    u32 sum = 0;
    for (u32 at = 0; at < 8; at++) {
        zeros[100 * at] = here[at] * there[at];
        there[7 - at] += here[at];
    }
    for (u32 at = 0; at < 1024; at++)
        sum += zeros[at];
    put_line("sum", sum);
    for (u32 at = 0; at < 8; at++)
        put_line("there", there[at]);
    return (int)sum;
}
