# Copies 1 KiB to the next KiB 1,500 times with h-loads and h-stores, changing
# the first doubleword each time. x10 mixes what was copied. Ends by hfiexit.
    lui x7,0x12345
    addi x7,x7,0x678
    .set place,0
    .rept 128
    slli x8,x7,13
    xor x7,x7,x8
    srli x8,x7,7
    xor x7,x7,x8
    slli x8,x7,17
    xor x7,x7,x8
    .insn s 0x2b, 3, x7, place(x0)      # hsd x7,place
    .set place,place+8
    .endr
    addi x6,x0,1500
round:
    .set place,0
    .rept 128
    .insn i 0x0b, 3, x5, x0, place      # hld x5,place
    .insn s 0x2b, 3, x5, place+1024(x0) # hsd x5,place+1024
    .set place,place+8
    .endr
    slli x8,x10,1
    srli x10,x10,63
    or x10,x10,x8
    xor x10,x10,x5
    .insn i 0x0b, 3, x5, x0, 1024       # hld x5,1024
    add x10,x10,x5
    add x5,x5,x6
    .insn s 0x2b, 3, x5, 0(x0)          # hsd x5,0
    addi x6,x6,-1
    bne x6,x0,round
    .word 0x0400005b                    # hfiexit
