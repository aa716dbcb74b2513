; Blinks pin 25, the light of a Pico. SIO drives the pin (RP2040 Datasheet, 2.3.1.2), and a loop waits between two changes.

start:   ldr r0, resets         ; IO_BANK0 and PADS_BANK0 come out of reset: bits 5 and 8
         ldr r1, blocks
         str r1, [r0, #0]
         ldr r0, done           ; wait until both are
wait:    ldr r2, [r0, #0]
         ands r2, r1
         cmp r2, r1
         bne wait

         ldr r0, control        ; function 5 of pin 25 is SIO
         movs r1, #5
         str r1, [r0, #0]
         ldr r0, sio
         ldr r1, pin
         str r1, [r0, #0x24]    ; GPIO_OE_SET: it is an output
again:   str r1, [r0, #0x1c]    ; GPIO_OUT_XOR: it changes its level
         ldr r2, count
delay:   subs r2, #1            ; three cycles each
         bne delay
         b again

         .align
resets:  .word 0x4000f000       ; RESETS RESET, the alias that clears bits
done:    .word 0x4000c008       ; RESETS RESET_DONE
blocks:  .word 0x120
control: .word 0x400140cc       ; IO_BANK0 GPIO25_CTRL
sio:     .word 0xd0000000       ; SIO
pin:     .word 0x02000000       ; bit 25
count:   .word 50               ; for the eye 10000000: four changes a second at 125 MHz
