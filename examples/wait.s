# Hart 0 writes an answer and raises a flag. Every other hart looks at the flag at most 1000 times, prints y where
# it saw it and n where it gave up.
_start:
    la   s0, flag
    bne  a0, zero, wait
    li   t0, 42
    sw   t0, 4(s0)          # the answer
    fence w, w
    li   t0, 1
    sw   t0, 0(s0)          # the flag
    j    done

wait:
    li   t1, 1000
look:
    lw   t0, (s0)
    bne  t0, zero, seen
    addi t1, t1, -1
    bne  t1, zero, look
    li   a0, 0x6e           # n
    j    say
seen:
    li   a0, 0x79           # y
say:
    li   a7, 1              # print the low byte of a0
    ecall
done:
    li   a7, 93             # exit with code 0
    li   a0, 0
    ecall

.data
flag:   .word 0
answer: .word 0
