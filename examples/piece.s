# Two words of text, and two bytes of memory from 64 on.
        addi x5, x0, 7
        ecall
        .data
        .org 64
        .byte 1, 255
