@ A loop of one branch.
    .syntax unified
    .cpu cortex-m0plus
    .thumb
loop:
    b loop
