// A machine of a dozen orders, chosen by a switch; its program gives the 16th Fibonacci number, 987.
typedef unsigned long u64;
typedef unsigned char u8;

enum order { PUSH, ADD, SUB, DUP, SWAP, OVER, DROP, LOAD, STORE, JUMP, JUMP_IF, HALT };

static u64 stack[16], store[4];

static const u8 orders[] = {
    PUSH, 0, STORE, 0, PUSH, 1, STORE, 1, PUSH, 16, STORE, 2,           // a, b, count
    LOAD, 1, DUP, LOAD, 0, ADD, STORE, 1, STORE, 0,                     // 12: a, b become b, b + a
    LOAD, 2, PUSH, 1, SUB, DUP, STORE, 2, JUMP_IF, 12,                  // once more
    LOAD, 0, LOAD, 1, SWAP, OVER, DROP, SWAP, DROP, JUMP, 44, HALT, HALT,
    HALT,
};

u64 compiled(void)
{
    const u8 *next = orders;
    u64 *top = stack;
    for (;;) {
        u64 x;
        switch (*next++) {
        case PUSH: *top++ = *next++; break;
        case ADD: top--; top[-1] += *top; break;
        case SUB: top--; top[-1] -= *top; break;
        case DUP: *top = top[-1]; top++; break;
        case SWAP: x = top[-1]; top[-1] = top[-2]; top[-2] = x; break;
        case OVER: *top = top[-2]; top++; break;
        case DROP: top--; break;
        case LOAD: *top++ = store[*next++]; break;
        case STORE: store[*next++] = *--top; break;
        case JUMP: next = orders + *next; break;
        case JUMP_IF: next = *--top ? orders + *next : next + 1; break;
        case HALT: return top[-1];
        default: return 0;
        }
    }
}
