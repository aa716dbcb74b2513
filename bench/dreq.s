; A DMA channel feeds a PIO machine by its data request, and core 0 sleeps. The machine has examples/shift.pio, on pin 0.

        ldr r0, dma
        ldr r1, pio
        ldr r2, settings
        str r2, [r1, #0]        ; SM0_SHIFTCTRL: autopull at 32 bits, to the right
        ldr r2, pins
        str r2, [r1, #12]       ; SM0_PINCTRL: out and set of one pin, from pin 0
        ldr r2, output
        str r2, [r1, #8]        ; SM0_INSTR: set pindirs, 1
        movs r2, #6
        ldr r3, pin0
        str r2, [r3, #0]        ; GPIO0_CTRL: function PIO0
        ldr r2, from
        str r2, [r0, #0]        ; READ_ADDR
        ldr r2, to
        str r2, [r0, #4]        ; WRITE_ADDR
        ldr r2, many
        str r2, [r0, #8]        ; TRANS_COUNT
        ldr r2, start
        str r2, [r0, #12]       ; CTRL_TRIG
        ldr r1, control
        movs r2, #1
        str r2, [r1, #0]        ; PIO0 CTRL: machine 0 runs
again:  wfi
        b again

        .align
dma:    .word 0x50000000        ; DMA channel 0
pio:    .word 0x502000d0        ; PIO0 SM0_SHIFTCTRL
settings: .word 0x000e0000
pins:   .word 0x04100000
output: .word 0xe081
pin0:   .word 0x40014004
from:   .word 0x20000000
to:     .word 0x50200010        ; PIO0 TXF0
many:   .word 0x00ffffff
start:  .word 0x00000009        ; enabled, words, the read address stays, chained to itself, paced by PIO0 TX0
control: .word 0x50200000
