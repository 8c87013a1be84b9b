/* Fields of bits in words, a packed record, and their bytes in memory. */
#include "kernel.h"

struct flags {
    u32 first : 3;
    i32 second : 5;
    u32 third : 11;
    u32 fourth : 1;
    i32 fifth : 12;
};

struct __attribute__((packed)) record {
    u8 tag;
    u32 number;
    i16 half;
    u64 wide;
};

union view {
    struct flags flags;
    u32 word;
    u8 bytes[4];
};

int main(void)
{
    volatile union view view;
    view.word = 0;
    for (u32 at = 0; at < 6; at++) {
        view.flags.first += 3;
        view.flags.second -= 7;
        view.flags.third = view.flags.third * 5 + at;
        view.flags.fourth = ~view.flags.fourth;
        view.flags.fifth -= 321;
        put_hex(view.word);
        put(" ");
        put_signed(view.flags.second);
        put(" ");
        put_signed(view.flags.fifth);
        put("\n");
    }
    volatile struct record record = { 0xA5, 0x01020304, -2, 0x1122334455667788ull };
    record.number += 0xF0F0F0F0u;
    record.half *= 300;
    record.wide ^= (u64)record.number << 16;
    for (u32 at = 0; at < sizeof record; at++) {
        put_hex(((volatile u8 *)&record)[at]);
        put("\n");
    }
    return view.bytes[0] ^ view.bytes[3];
}
