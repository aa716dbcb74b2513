@ The first instruction of an image for SRAM: the emulator begins at the lowest loaded address, with SP at the end of SRAM.
    .syntax unified
    .cpu cortex-m0plus
    .thumb
    .section .entry, "ax"
    .global _entry
    .thumb_func
_entry:
    bl main             @ .bss is 0 already: SRAM is 0 where nothing was loaded; what main gives is left in R0
    bkpt #0             @ the run stops here
