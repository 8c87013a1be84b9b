/* Division by shifts and differences against the processor's own, signed and unsigned. */
#include "kernel.h"

static u32 divide(u32 number, u32 by, u32 *left)
{
    u32 quotient = 0, rest = 0;
    for (u32 bit = 32; bit-- > 0;) {
        rest = rest << 1 | (number >> bit & 1);
        if (rest >= by) {
            rest -= by;
            quotient |= 1u << bit;
        }
    }
    *left = rest;
    return quotient;
}

static i32 divide_signed(i32 number, i32 by, i32 *left)
{
    u32 rest;
    u32 quotient = divide(number < 0 ? -(u32)number : (u32)number, by < 0 ? -(u32)by : (u32)by, &rest);
    *left = number < 0 ? -(i32)rest : (i32)rest;
    return (number < 0) != (by < 0) ? -(i32)quotient : (i32)quotient;
}

int main(void)
{
    u32 wrong = 0, sum = 0;
    for (u32 at = 0; at < 400; at++) {
        volatile u32 number = draw() << 8 ^ draw(), by = (draw() >> draw() % 20) + 1;
        u32 rest;
        u32 quotient = divide(number, by, &rest);
        wrong += quotient != number / by || rest != number % by;
        sum += quotient ^ rest;
        volatile i32 first = (i32)number, second = at & 1 ? (i32)by : -(i32)by;
        i32 left;
        i32 whole = divide_signed(first, second, &left);
        wrong += whole != first / second || left != first % second;
        sum += (u32)(whole ^ left);
    }
    put_line("wrong", wrong);
    put_line("sum", sum);
    return (int)(wrong + 7);
}
