/* Text that is read and written in pieces: lines, words, bytes, and each word with its letters turned. */
#include "kernel.h"

static u8 in[64], out[48];
static u32 filled;

static void flush(void)
{
    u32 done = 0;
    while (done < filled) {
        i32 wrote = write_bytes(1, out + done, filled - done);
        if (wrote <= 0)
            return;
        done += (u32)wrote;
    }
    filled = 0;
}

static void put_byte(u8 byte)
{
    out[filled++] = byte;
    if (filled == sizeof out)
        flush();
}

int main(void)
{
    static u8 word[32];
    u32 lines = 0, words = 0, bytes = 0, length = 0;
    i32 got;
    while ((got = read_bytes(0, in, sizeof in)) > 0)
        for (i32 at = 0; at < got; at++) {
            u8 byte = in[at];
            bytes++;
            lines += byte == '\n';
            if (byte > ' ' && length < sizeof word) {
                word[length++] = byte;
                continue;
            }
            words += length > 0;
            while (length > 0)
                put_byte(word[--length]);
            put_byte(byte);
        }
    flush();
    put_line("lines", lines);
    put_line("words", words);
    put_line("bytes", bytes);
    put_line("error", (u32)-read_bytes(9, in, 1));
    return (int)words;
}
