# Gives a compiled program its stack and ends with what END names; `last` is that word; four bytes are kept for it.
#define ecall_end ecall
#define ebreak_end c.ebreak; c.nop
#define exit_end .word 0x0400005b
#define join(name) name##_end
#define ending(name) join(name)
        .section .text.start, "ax"
        .globl _start, last
_start: c.nop
        lui     sp, 8
        call    compiled
last:   ending(END)
