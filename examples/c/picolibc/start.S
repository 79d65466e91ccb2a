# Where each hart begins, for a guest with picolibc. The library keeps the state of `rand`, `strtok` and `errno` in thread-local
# variables, so each hart gets a block of its own for them: tp points to it, and it begins as a copy of .tdata. The rest of the block
# is zero already, as is .bss. Only t0 to t2 are used, so that main finds its arguments in a0 and a1.
    .section .text.start, "ax"
    .globl _start
_start:
    lui  t0, %hi(__tls_size)
    addi t0, t0, %lo(__tls_size)
    mul  t0, t0, a0
    la   tp, __tls_blocks
    add  tp, tp, t0

    la   t0, __tdata_start
    la   t1, __tdata_end
    mv   t2, tp
copy:
    beq  t0, t1, copied
    lw   t3, (t0)
    sw   t3, (t2)
    addi t0, t0, 4
    addi t2, t2, 4
    j    copy
copied:
    call main
    li   a7, 93
    ecall
