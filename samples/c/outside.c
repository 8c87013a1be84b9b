/* Writes a line, and then ends by an access to an address that is in no segment. */
#include "kernel.h"

int main(void)
{
    put("before\n");
    volatile u32 *nowhere = (volatile u32 *)0x20000000;
    u32 found = *nowhere;
    put("after\n");
    return (int)found;
}
