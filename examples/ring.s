# A ring of 8 words for each pair of harts. The even hart puts the numbers 1 to 100 into it, the odd one takes them out
# and exits with their sum, 5050 (0x13ba). `put_count` and `taken_count` are shared by atomic instructions alone, so
# the words of the ring are all that a hart can be paused at.
#
# It has a bug: `put_count` is raised before the word stands in the ring, so the other hart may take what stood there
# before. `ring_fixed.s` has the two in order.
_start:
    la   s0, rings
    srli t0, a0, 1
    slli t0, t0, 6
    add  s0, s0, t0         # the pair's put_count
    addi s1, s0, 4          # its taken_count
    addi s2, s0, 8          # its words
    li   s3, 100
    li   s4, 0              # the sum
    li   s5, 0              # how many were put, or taken
    andi t0, a0, 1
    bne  t0, zero, take

put:
    lr.w.aq t0, (s1)
    sub  t0, s5, t0
    li   t1, 8
    beq  t0, t1, put        # the ring is full
    andi t2, s5, 7
    slli t2, t2, 2
    add  t2, t2, s2
    addi s5, s5, 1
    amoswap.w.rl zero, s5, (s0)
    sw   s5, (t2)           # the bug: one instruction too late
    bne  s5, s3, put
    j    done

take:
    lr.w.aq t0, (s0)
    beq  t0, s5, take       # the ring is empty
    andi t2, s5, 7
    slli t2, t2, 2
    add  t2, t2, s2
    lw   t3, (t2)
    add  s4, s4, t3
    addi s5, s5, 1
    amoswap.w.rl zero, s5, (s1)
    bne  s5, s3, take

done:
    li   a7, 93             # exit
    mv   a0, s4
    ecall

.data
rings: .zero 512            # of each pair: put_count, taken_count, 8 words, and 24 bytes that are not used
