; Two DMA channels keep an SPI of PIO at work, by bytes in both directions, and core 0 sleeps. The machine has spi.pio: data out on
; pin 0, the clock on pin 1, data in on pin 2.

        ldr r1, pio
        ldr r2, settings
        str r2, [r1, #0]        ; SM0_SHIFTCTRL: autopull and autopush at 8 bits, to the left
        ldr r2, pins
        str r2, [r1, #12]       ; SM0_PINCTRL
        ldr r2, outputs
        str r2, [r1, #8]        ; SM0_INSTR: set pindirs, 3
        movs r2, #6
        ldr r3, pin0
        str r2, [r3, #0]        ; GPIO0_CTRL to GPIO2_CTRL: function PIO0
        str r2, [r3, #8]
        str r2, [r3, #16]
        ldr r0, dma
        ldr r2, data
        str r2, [r0, #0]        ; channel 0, from SRAM to the machine
        ldr r2, out
        str r2, [r0, #4]
        ldr r2, many
        str r2, [r0, #8]
        ldr r2, sends
        str r2, [r0, #12]
        adds r0, #64
        ldr r2, in
        str r2, [r0, #0]        ; channel 1, from the machine to SRAM
        ldr r2, room
        str r2, [r0, #4]
        ldr r2, many
        str r2, [r0, #8]
        ldr r2, takes
        str r2, [r0, #12]
        ldr r1, control
        movs r2, #1
        str r2, [r1, #0]        ; PIO0 CTRL: machine 0 runs
again:  wfi
        b again

        .align
pio:    .word 0x502000d0        ; PIO0 SM0_SHIFTCTRL
settings: .word 0x10830000
pins:   .word 0x28110400        ; side-set 1 pin from 1, set 2 pins from 0, in from 2, out 1 pin from 0
outputs: .word 0xe083
pin0:   .word 0x40014004
dma:    .word 0x50000000
data:   .word 0x20000000
out:    .word 0x50200010        ; PIO0 TXF0
in:     .word 0x50200020        ; PIO0 RXF0
room:   .word 0x20001000
many:   .word 0x00ffffff
sends:  .word 0x00000211        ; enabled, bytes, the read address rises in a ring of 256, paced by PIO0 TX0
takes:  .word 0x00020e21        ; enabled, bytes, the write address rises in a ring of 256, chained to itself, paced by PIO0 RX0
control: .word 0x50200000
