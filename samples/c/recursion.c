/* Functions that call themselves: Ackermann's, the towers of Hanoi, Fibonacci's numbers, queens on a board. */
#include "kernel.h"

static u32 __attribute__((noinline)) ackermann(u32 m, u32 n)
{
    if (m == 0)
        return n + 1;
    if (n == 0)
        return ackermann(m - 1, 1);
    return ackermann(m - 1, ackermann(m, n - 1));
}

static u32 moves;

static void __attribute__((noinline)) hanoi(u32 disks, char from, char to, char by)
{
    if (disks == 0)
        return;
    hanoi(disks - 1, from, by, to);
    moves++;
    if (disks == 6) {
        char line[] = { from, '-', to, '\n' };
        write_bytes(1, line, sizeof line);
    }
    hanoi(disks - 1, by, to, from);
}

static u32 __attribute__((noinline)) fibonacci(u32 n)
{
    return n < 2 ? n : fibonacci(n - 1) + fibonacci(n - 2);
}

static u32 __attribute__((noinline)) queens(u32 row, u32 columns, u32 left, u32 right)
{
    if (row == 6)
        return 1;
    u32 found = 0;
    for (u32 at = 0; at < 6; at++) {
        u32 bit = 1u << at;
        if (!((columns | left | right) & bit))
            found += queens(row + 1, columns | bit, (left | bit) << 1, (right | bit) >> 1);
    }
    return found;
}

int main(void)
{
    put_line("ackermann", ackermann(2, 6));
    hanoi(6, 'a', 'c', 'b');
    put_line("moves", moves);
    put_line("fibonacci", fibonacci(17));
    put_line("queens", queens(0, 0, 0, 0));
    return (int)moves;
}
