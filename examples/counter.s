# Each hart counts its rounds in one word, without a lock, so that some are lost. Each access of the word is the load
# or the store of `lw`, `addi`, `sw` on one register and one place: what meets there is counted apart, as a Counter.
_start:
    la   s0, rounds
    li   s1, 100
again:
    lw   t0, (s0)
    addi t0, t0, 1
    sw   t0, (s0)
    addi s1, s1, -1
    bne  s1, zero, again
    li   a7, 93             # exit with code 0
    li   a0, 0
    ecall

.data
rounds: .word 0
