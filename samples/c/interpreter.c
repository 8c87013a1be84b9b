/* An interpreter of a stack machine, whose ops are told apart by a table of jumps. */
#include "kernel.h"

enum op { PUSH, ADD, SUB, MUL, HALVE, ODD, DUP, SWAP, DROP, LOAD, STORE, JUMP, JUMP_IF, LESS, PRINT, CALL, RETURN, HALT };
enum cell { NUMBER, COUNT, MOST };
enum place { LOOP = 12, BEHIND = 33, KEEP = 40, NEXT = 50, UP = 64, DONE = 80 };

/* How many steps the Collatz numbers take from 27 to 1, and the greatest of them. */
static const u8 program[] = {
    [0] = PUSH, 27, STORE, NUMBER, PUSH, 0, STORE, COUNT, PUSH, 0, STORE, MOST,
    [LOOP] = LOAD, NUMBER, PUSH, 2, LESS, JUMP_IF, DONE,
             LOAD, COUNT, PUSH, 1, ADD, STORE, COUNT,
             LOAD, MOST, LOAD, NUMBER, LESS, JUMP_IF, KEEP,
    [BEHIND] = CALL, NEXT, JUMP, LOOP,
    [KEEP] = LOAD, NUMBER, STORE, MOST, JUMP, BEHIND,
    [NEXT] = LOAD, NUMBER, ODD, JUMP_IF, UP, LOAD, NUMBER, HALVE, STORE, NUMBER, RETURN,
    [UP] = LOAD, NUMBER, PUSH, 3, MUL, PUSH, 1, ADD, STORE, NUMBER, RETURN,
    [DONE] = LOAD, COUNT, PRINT, LOAD, MOST, PRINT, HALT,
};

static i32 stack[64], cells[3];
static u32 returns[16];

static i32 run(void)
{
    u32 at = 0, top = 0, depth = 0;
    for (i32 steps = 0;; steps++) {
        switch ((enum op)program[at++]) {
        case PUSH: stack[top++] = program[at++]; break;
        case ADD: top--; stack[top - 1] += stack[top]; break;
        case SUB: top--; stack[top - 1] -= stack[top]; break;
        case MUL: top--; stack[top - 1] *= stack[top]; break;
        case HALVE: stack[top - 1] /= 2; break;
        case ODD: stack[top - 1] &= 1; break;
        case DUP: stack[top] = stack[top - 1]; top++; break;
        case SWAP: {
            i32 kept = stack[top - 1];
            stack[top - 1] = stack[top - 2];
            stack[top - 2] = kept;
            break;
        }
        case DROP: top--; break;
        case LOAD: stack[top++] = cells[program[at++]]; break;
        case STORE: cells[program[at++]] = stack[--top]; break;
        case JUMP: at = program[at]; break;
        case JUMP_IF: at = stack[--top] ? program[at] : at + 1; break;
        case LESS: top--; stack[top - 1] = stack[top - 1] < stack[top]; break;
        case PRINT: put_signed(stack[--top]); put("\n"); break;
        case CALL: returns[depth++] = at + 1; at = program[at]; break;
        case RETURN: at = returns[--depth]; break;
        case HALT: return steps;
        default: return -1;
        }
    }
}

int main(void)
{
    i32 steps = run();
    put_line("steps", (u32)steps);
    return steps & 127;
}
