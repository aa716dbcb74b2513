@ Both cores run, four PIO machines send from their FIFOs, a DMA channel that a timer paces feeds one of them, and UART0 sends.
    .syntax unified
    .cpu cortex-m0plus
    .thumb
    .macro poke address, value
    ldr r0, =\address
    ldr r1, =\value
    str r1, [r0]
    .endm
start:
    @ core 1
    ldr r7, =0xd0000000
    adr r6, words
    movs r5, #6
send:
    ldmia r6!, {r0}
    str r0, [r7, #0x54]
wait:
    ldr r0, [r7, #0x50]
    lsrs r0, r0, #1
    bcc wait
    ldr r0, [r7, #0x58]
    subs r5, #1
    bne send
    @ PIO0: out pins, 1 in four machines, with autopull
    poke 0x50200048, 0x6001
    .irp m, 0, 1, 2, 3
    poke (0x502000cc + 24 * \m), 0x00000000
    poke (0x502000d0 + 24 * \m), 0x000e0000
    poke (0x502000dc + 24 * \m), (0x14100000 + \m)
    .endr
    poke 0x50200000, 0x0000000f
    poke 0x40014004, 6
    poke 0x4001400c, 6
    @ UART0
    poke 0x40034024, 1
    poke 0x4003402c, 0x70
    poke 0x40034030, 0x301
    poke 0x40014084, 2
    @ DMA channel 0, paced by timer 0, to the FIFO of machine 0
    poke 0x50000420, 0x00010020
    poke 0x50000000, 0x20000000
    poke 0x50000004, 0x50200010
    poke 0x50000008, 0x00ffffff
    poke 0x5000000c, 0x001d8009
    ldr r2, =0x50200010
    ldr r3, =0x40034000
loop:
    adds r4, #1
    str r4, [r2, #4]
    str r4, [r2, #8]
    str r4, [r2, #12]
    str r4, [r3]
    b loop
    .align 2
words:
    .word 0, 0, 1, 0, 0x20002000, other + 0x20000001
    .ltorg
other:
    adds r0, #1
    b other
