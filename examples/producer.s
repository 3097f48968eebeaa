# Hands 1, 2, .., 20 to the consumer. The word at 0 is a flag: 1 while the number at 64 waits to be taken. The two words are
# in lines of their own, so that each core that reads the flag keeps a Shared copy of it and waits without the bus.
        li t0, 20               # the last number
        li t1, 0                # the number
        li t3, 1
loop:   addi t1, t1, 1
full:   lw t2, 0(zero)          # wait until the number before is taken
        bnez t2, full
        sw t1, 64(zero)
        amoswap.w zero, t3, (zero)      # there it is
        bne t1, t0, loop
        li a0, 0
        ecall                   # exit 0
