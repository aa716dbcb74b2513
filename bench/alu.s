@ A loop of sums; everything but core 0 is at rest.
    .syntax unified
    .cpu cortex-m0plus
    .thumb
loop:
    .rept 62
    adds r0, #1
    .endr
    b loop
