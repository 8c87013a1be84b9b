/* Functions by their addresses: in a table, as arguments, and in a record of methods. */
#include "kernel.h"

typedef i32 operation(i32, i32);

static i32 add(i32 x, i32 y) { return x + y; }
static i32 subtract(i32 x, i32 y) { return x - y; }
static i32 multiply(i32 x, i32 y) { return x * y; }
static i32 greater(i32 x, i32 y) { return x > y ? x : y; }

static operation *const operations[] = { add, subtract, multiply, greater };

static i32 fold(operation *with, const i32 *list, u32 count, i32 from)
{
    for (u32 at = 0; at < count; at++)
        from = with(from, list[at]);
    return from;
}

struct shape {
    u32 (*area)(const struct shape *);
    const char *name;
    u32 width, height;
};

static u32 rectangle(const struct shape *of) { return of->width * of->height; }
static u32 triangle(const struct shape *of) { return of->width * of->height / 2; }

static const struct shape shapes[] = {
    { rectangle, "rectangle", 6, 7 },
    { triangle, "triangle", 10, 5 },
    { rectangle, "square", 9, 9 },
};

int main(void)
{
    static const i32 list[] = { 3, -1, 4, 1, -5, 9, -2, 6 };
    i32 sum = 0;
    for (u32 at = 0; at < 4; at++) {
        i32 result = fold(operations[at], list, 8, 1);
        put_signed(result);
        put("\n");
        sum += result;
    }
    for (u32 at = 0; at < 3; at++)
        put_line(shapes[at].name, shapes[at].area(&shapes[at]));
    return sum & 255;
}
