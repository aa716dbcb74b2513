@ A loop of loads and stores in SRAM.
    .syntax unified
    .cpu cortex-m0plus
    .thumb
    ldr r1, =0x20001000
loop:
    .rept 16
    ldr r0, [r1]
    str r0, [r1, #4]
    adds r0, #1
    .endr
    b loop
    .ltorg
