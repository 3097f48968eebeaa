# Adds 1 to this core's counter, ten times. The counters of cores 0 and 1 are at 0 and 64: in lines of their own.
        slli t0, a0, 6          # a0 is the core's number at the start
        li t1, 10
loop:   lw t2, 0(t0)
        addi t2, t2, 1
        sw t2, 0(t0)
        addi t1, t1, -1
        bnez t1, loop
        ecall
