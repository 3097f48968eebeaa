# Takes the lock, adds 1 to the counter and gives the lock back, five times. Lock and counter have lines of their own.
        .data
lock:   .word 0                 # 1 while a core has it
        .balign 64
count:  .word 0
        .text
        li s0, 5                # how many times
        li s1, 1
        la s2, lock
        la s3, count
wait:   lw t0, 0(s2)            # look first: a Shared copy is read without the bus
        bnez t0, wait
        amoswap.w t0, s1, (s2)  # try: a write, which takes the line from all others
        bnez t0, wait           # another core was first
        lw t1, 0(s3)            # here one core is at a time, so no count is lost
        addi t1, t1, 1
        sw t1, 0(s3)
        sw zero, 0(s2)          # give it back
        addi s0, s0, -1
        bnez s0, wait
        mv a0, t1
        ecall                   # exit with the counter as this core left it
