/* CRC-32 of the input, bit by bit and by a table (ISO 3309). */
#include "kernel.h"

static u32 table[256];
static u8 bytes[300];

static u32 step(u32 crc)
{
    return crc & 1 ? crc >> 1 ^ 0xEDB88320u : crc >> 1;
}

int main(void)
{
    for (u32 at = 0; at < 256; at++) {
        table[at] = at;
        for (u32 bit = 0; bit < 8; bit++)
            table[at] = step(table[at]);
    }
    u32 slow = ~0u, fast = ~0u, total = 0;
    i32 got;
    while ((got = read_bytes(0, bytes, sizeof bytes)) > 0) {
        for (i32 at = 0; at < got; at++) {
            slow ^= bytes[at];
            for (u32 bit = 0; bit < 8; bit++)
                slow = step(slow);
            fast = table[(fast ^ bytes[at]) & 255] ^ fast >> 8;
        }
        total += (u32)got;
    }
    put_line("bytes", total);
    put_hex(~slow);
    put("\n");
    put_hex(~fast);
    put("\n");
    return slow == fast ? 0 : 1;
}
