# Counts the primes below 20,000 with one byte a number at 8000. x10 is the count.
    lui x5,8
    lui x6,5
    addi x6,x6,-480
    add x6,x5,x6
    addi x7,x0,1
fill:
    sb x7,0(x5)
    addi x5,x5,1
    bltu x5,x6,fill
    lui x5,8
    addi x8,x0,2
    addi x13,x0,142
outer:
    add x9,x5,x8
    lbu x11,0(x9)
    beq x11,x0,skip
    add x12,x8,x8
    add x12,x5,x12
inner:
    sb x0,0(x12)
    add x12,x12,x8
    bltu x12,x6,inner
skip:
    addi x8,x8,1
    bltu x8,x13,outer
    addi x10,x0,0
    addi x9,x5,2
count:
    lbu x11,0(x9)
    add x10,x10,x11
    addi x9,x9,1
    bltu x9,x6,count
    ecall
