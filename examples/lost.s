# Each hart adds 1 to one counter, without a lock: an addition can be lost.
_start:
    la   s0, counter
    lw   t0, (s0)
    addi t0, t0, 1
    sw   t0, (s0)
    li   a7, 93             # exit with code 0
    li   a0, 0
    ecall

.data
counter: .word 0
