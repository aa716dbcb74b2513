@ A loop of sums while slice 0 of PWM counts in each cycle; no pin has its outputs.
    .syntax unified
    .cpu cortex-m0plus
    .thumb
    ldr r1, =0x40050000
    movs r0, #3
    str r0, [r1, #0x10]
    movs r0, #2
    str r0, [r1, #0x0c]
    movs r0, #1
    str r0, [r1]
loop:
    .rept 62
    adds r0, #1
    .endr
    b loop
    .ltorg
