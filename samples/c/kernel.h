/* What a program has of its kernel: its start and its calls, with no library. */
typedef unsigned char u8;
typedef unsigned short u16;
typedef unsigned int u32;
typedef unsigned long long u64;
typedef signed char i8;
typedef short i16;
typedef int i32;
typedef long long i64;

int main(void);

#ifdef __powerpc__
/* The stack's first frame ends the chain of back links; the program's number is main's. */
__asm__(".globl _start\n"
        "_start:\n"
        "\tli 0,0\n"
        "\tstwu 1,-16(1)\n"
        "\tstw 0,0(1)\n"
        "\tbl main\n"
        "\tli 0,1\n"
        "\tsc\n"
        "\ttrap\n");

/* A call with its operands; an error is answered as its number below 0. */
static inline i32 call(u32 number, u32 first, u32 second, u32 third)
{
    register u32 r0 __asm__("r0") = number;
    register u32 r3 __asm__("r3") = first;
    register u32 r4 __asm__("r4") = second;
    register u32 r5 __asm__("r5") = third;
    u32 fields;
    __asm__ volatile("sc\n\tmfcr %4"
                     : "+r"(r0), "+r"(r3), "+r"(r4), "+r"(r5), "=r"(fields)
                     :
                     : "memory", "cr0", "ctr", "xer", "r6", "r7", "r8", "r9", "r10", "r11", "r12");
    return (fields & 0x10000000) ? -(i32)r3 : (i32)r3;
}

#else
/* The same on IA-32, for comparisons of speed. */
__asm__(".globl _start\n"
        "_start:\n"
        "\tcall main\n"
        "\tmov %eax,%ebx\n"
        "\tmov $1,%eax\n"
        "\tint $0x80\n");

static inline i32 call(u32 number, u32 first, u32 second, u32 third)
{
    i32 result;
    __asm__ volatile("int $0x80" : "=a"(result) : "a"(number), "b"(first), "c"(second), "d"(third) : "memory");
    return result;
}
#endif

static inline i32 read_bytes(u32 file, void *into, u32 count)
{
    return call(3, file, (u32)into, count);
}

static inline i32 write_bytes(u32 file, const void *from, u32 count)
{
#ifdef QUIET
    return (i32)count;
#else
    return call(4, file, (u32)from, count);
#endif
}

static u32 length_of(const char *text)
{
    u32 count = 0;
    while (text[count])
        count++;
    return count;
}

static void put(const char *text)
{
    write_bytes(1, text, length_of(text));
}

static void put_number(u32 number)
{
    char digits[11];
    u32 at = sizeof digits;
    do {
        digits[--at] = (char)('0' + number % 10);
        number /= 10;
    } while (number);
    write_bytes(1, digits + at, sizeof digits - at);
}

static void put_signed(i32 number)
{
    if (number < 0) {
        put("-");
        put_number(-(u32)number);
    } else {
        put_number((u32)number);
    }
}

static void put_hex(u32 number)
{
    char digits[8];
    for (u32 at = 0; at < 8; at++)
        digits[at] = "0123456789abcdef"[number >> (28 - 4 * at) & 15];
    write_bytes(1, digits, 8);
}

static void put_line(const char *name, u32 number)
{
    put(name);
    put(" ");
    put_number(number);
    put("\n");
}

/* A generator of numbers: each is the last one times 1664525 and 1013904223 more. */
static u32 seed = 1;

static u32 draw(void)
{
    seed = seed * 1664525u + 1013904223u;
    return seed >> 8;
}
