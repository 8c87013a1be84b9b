/* Functions on strings, as a library has them. */
#include "kernel.h"

static i32 compare(const char *one, const char *other)
{
    while (*one && *one == *other)
        one++, other++;
    return (u8)*one - (u8)*other;
}

static char *copy(char *to, const char *from)
{
    char *start = to;
    while ((*to++ = *from++))
        ;
    return start;
}

static const char *find(const char *text, const char *part)
{
    for (; *text; text++) {
        const char *at = text, *wanted = part;
        while (*wanted && *at == *wanted)
            at++, wanted++;
        if (!*wanted)
            return text;
    }
    return 0;
}

static void reverse(char *text)
{
    u32 count = length_of(text);
    for (u32 at = 0; at < count / 2; at++) {
        char kept = text[at];
        text[at] = text[count - 1 - at];
        text[count - 1 - at] = kept;
    }
}

static void raise(char *text)
{
    for (; *text; text++)
        if (*text >= 'a' && *text <= 'z')
            *text = (char)(*text - 'a' + 'A');
}

static i32 number_of(const char *text)
{
    i32 sign = 1, number = 0;
    if (*text == '-')
        sign = -1, text++;
    while (*text >= '0' && *text <= '9')
        number = 10 * number + (*text++ - '0');
    return sign * number;
}

int main(void)
{
    static char room[64];
    const char *text = "the quick brown fox jumps over the lazy dog";
    put(copy(room, text));
    put("\n");
    reverse(room);
    put(room);
    put("\n");
    raise(room);
    put(room);
    put("\n");
    put(find(text, "fox"));
    put("\n");
    put_signed(find(text, "cat") == 0);
    put("\n");
    put_signed(compare("abc", "abd") < 0);
    put_signed(compare("b", "abd") > 0);
    put_signed(compare("same", "same"));
    put_signed(compare("\xff", "a") > 0);
    put("\n");
    put_signed(number_of("-12345") + number_of("12000"));
    put("\n");
    return (int)length_of(text);
}
