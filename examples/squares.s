# Writes the squares of 0 to 15 to this core's own sixteen words, then adds their sum to the word at 1024, which all cores share.
        slli t0, a0, 6          # where this core's words begin
        li t1, 0                # the number
        li t2, 0                # its square, the sum of the first odd numbers
        li t3, 1                # the next odd number
        li t4, 0                # the sum of the squares
        li t5, 16
loop:   sw t2, 0(t0)
        add t4, t4, t2
        add t2, t2, t3
        addi t3, t3, 2
        addi t0, t0, 4
        addi t1, t1, 1
        bne t1, t5, loop
        li t0, 1024
        amoadd.w zero, t4, (t0)
        mv a0, t4
        ecall                   # exit with the sum, 1240
