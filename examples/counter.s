# Adds 1 to the word at 128, twenty times. Two cores that do so at once lose no count: an AMO reads and writes its word in one
# access.
        li t0, 20               # how many times
        li t1, 1
        li t2, 128
loop:   amoadd.w zero, t1, (t2)
        addi t0, t0, -1
        bnez t0, loop
        ecall                   # exit with the core's number
