# Hart 0 works in 20 rounds and tells how far it is in one word: bit 0 says that the answer stands, the bits above count
# the rounds. Every other hart polls bit 0, and then prints the answer. The word is shared by plain loads and stores
# alone. A poll that saw only the count change is counted apart, as a Flag; one that saw bit 0 change is a race.
_start:
    la   s0, progress
    bne  a0, zero, poll
    li   t0, 40             # twice the rounds
    li   t1, 0
work:
    addi t1, t1, 2
    sw   t1, 0(s0)          # one round more
    bne  t1, t0, work
    li   t2, 0x2a
    sw   t2, 4(s0)          # the answer
    fence w, w
    addi t1, t1, 1
    sw   t1, 0(s0)          # it stands
    j    done

poll:
    lw   t0, 0(s0)
    andi t0, t0, 1
    beq  t0, zero, poll
    fence r, r
    lw   a0, 4(s0)
    li   a7, 1              # print its low byte
    ecall
done:
    li   a7, 93             # exit with code 0
    li   a0, 0
    ecall

.data
progress: .word 0
answer:   .word 0
