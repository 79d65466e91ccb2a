# Each hart adds 100 to one counter, under a spin lock of LR and SC.
_start:
    la   s0, lock
    la   s1, counter
    li   s2, 100
take:
    lr.w.aq t0, (s0)        # 0 where the lock is free
    bne  t0, zero, take
    li   t1, 1
    sc.w t2, t1, (s0)
    bne  t2, zero, take     # another hart was first
    lw   t3, (s1)
    addi t3, t3, 1
    sw   t3, (s1)
    fence rw, w
    sw   zero, (s0)         # the lock is free again
    addi s2, s2, -1
    bne  s2, zero, take
    li   a7, 93             # exit with code 0
    li   a0, 0
    ecall

.data
lock:    .word 0
counter: .word 0
