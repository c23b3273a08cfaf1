# CRC-32 (reflected, edb88320) of 4 KiB at 2000, bit by bit. x10 is the result.
# The bytes are 512 doublewords of a shift-and-xor generator.
    lui x5,2
    lui x6,3
    lui x7,0x12345
    addi x7,x7,0x678
fill:
    slli x8,x7,13
    xor x7,x7,x8
    srli x8,x7,7
    xor x7,x7,x8
    slli x8,x7,17
    xor x7,x7,x8
    sd x7,0(x5)
    addi x5,x5,8
    bltu x5,x6,fill
    lui x5,2
    addi x10,x0,-1
    srli x10,x10,32
    lui x9,0xedb88
    addi x9,x9,0x320
    slli x9,x9,32
    srli x9,x9,32
next:
    lbu x7,0(x5)
    xor x10,x10,x7
    addi x8,x0,8
bit:
    andi x11,x10,1
    srli x10,x10,1
    sub x11,x0,x11
    and x11,x11,x9
    xor x10,x10,x11
    addi x8,x8,-1
    bne x8,x0,bit
    addi x5,x5,1
    bltu x5,x6,next
    xori x10,x10,-1
    slli x10,x10,32
    srli x10,x10,32
    ecall
