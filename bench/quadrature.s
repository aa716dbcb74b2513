; A PIO machine counts the steps of two inputs, pins 0 and 1, and core 0 reads the count without end. The machine has
; quadrature.pio.

        ldr r1, shifts
        ldr r2, settings
        str r2, [r1, #0]        ; SM0_SHIFTCTRL: out to the right, in to the left, nothing by itself
        ldr r0, pio
        movs r2, #1
        str r2, [r0, #0]        ; PIO0 CTRL: machine 0 runs
again:  ldr r3, [r0, #0x20]     ; RXF0
        b again

        .align
shifts: .word 0x502000d0        ; PIO0 SM0_SHIFTCTRL
settings: .word 0x00080000
pio:    .word 0x50200000
