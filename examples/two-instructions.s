# The smallest guest: it exits with status 0.
    .globl _start
_start:
    addi x17, x0, 93
    ecall
