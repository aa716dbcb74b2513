/* An image that is loaded to SRAM: the code that runs first stands at the lowest address. */
ENTRY(_entry)
MEMORY { ram (rwx) : ORIGIN = 0x20000000, LENGTH = 264K }
SECTIONS
{
    .text : { KEEP(*(.entry)) *(.text*) *(.rodata*) *(.data*) . = ALIGN(4); } > ram
    .bss : { *(.bss*) *(COMMON) . = ALIGN(8); end = .; } > ram      /* newlib's heap begins at `end` */
    /DISCARD/ : { *(.ARM*) *(.comment) *(.note*) }
}
/* the stack of core 0 begins at the end of SRAM and grows down to what stands here */
ASSERT(end + 2K <= ORIGIN(ram) + LENGTH(ram), "code, .data and .bss leave less than 2 KiB of SRAM for the stack")
