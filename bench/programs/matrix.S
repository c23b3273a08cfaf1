# Product of two 20 by 20 matrices of doublewords, products by shift and add.
# A at 4000 (entries of 8 bits), B at 5000 (16 bits), C at 6000. x10 mixes C.
    lui x5,4
    lui x7,0x12345
    addi x7,x7,0x678
    lui x14,1
    addi x13,x0,400
    addi x15,x0,255
fill:
    slli x8,x7,13
    xor x7,x7,x8
    srli x8,x7,7
    xor x7,x7,x8
    slli x8,x7,17
    xor x7,x7,x8
    and x8,x7,x15
    sd x8,0(x5)
    add x9,x5,x14
    srli x8,x7,48
    sd x8,0(x9)
    addi x5,x5,8
    addi x13,x13,-1
    bne x13,x0,fill
    lui x20,4          # row of A
    lui x22,6          # place in C
    addi x23,x0,20     # rows left
row:
    lui x21,5          # column of B
    addi x24,x0,20     # columns left
column:
    addi x25,x20,0     # place in the row
    addi x26,x21,0     # place in the column
    addi x27,x0,20     # terms left
    addi x12,x0,0      # sum
term:
    ld x5,0(x25)
    ld x6,0(x26)
    beq x5,x0,next
product:
    andi x8,x5,1
    sub x8,x0,x8
    and x8,x8,x6
    add x12,x12,x8
    slli x6,x6,1
    srli x5,x5,1
    bne x5,x0,product
next:
    addi x25,x25,8
    addi x26,x26,160
    addi x27,x27,-1
    bne x27,x0,term
    sd x12,0(x22)
    slli x8,x10,1
    srli x10,x10,63
    or x10,x10,x8
    xor x10,x10,x12
    addi x22,x22,8
    addi x21,x21,8
    addi x24,x24,-1
    bne x24,x0,column
    addi x20,x20,160
    addi x23,x23,-1
    bne x23,x0,row
    ecall
