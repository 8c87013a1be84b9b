/* A sample's program, so many times over, without its output. */
#define main once
#include PROGRAM
#undef main

int main(void)
{
    int last = 0;
    for (u32 round = 0; round < ROUNDS; round++)
        last = once();
    return last;
}
