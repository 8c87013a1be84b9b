/* Writes a line, and then meets a trap. */
#include "kernel.h"

int main(void)
{
    put("before\n");
    __builtin_trap();
}
