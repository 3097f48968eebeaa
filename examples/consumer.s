# Takes twenty numbers from the producer, and exits with their sum. The word at 0 is a flag: 1 while the number at 64 waits
# to be taken.
        li t0, 20               # how many there are
        li a0, 0                # the sum
        li t1, 0                # how many were taken
wait:   lw t2, 0(zero)          # wait for a number
        beqz t2, wait
        lw t3, 64(zero)
        add a0, a0, t3
        amoswap.w zero, zero, (zero)    # it is taken
        addi t1, t1, 1
        bne t1, t0, wait
        ecall                   # exit with the sum
