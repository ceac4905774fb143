/* The memory of the image: code and constants, data, heap and stack, which a loss of power empties. Behind them is the
 * memory of the card, which it does not. */
ENTRY(start)
SECTIONS
{
    . = 0x40080000;
    .text : { *(.text.start) *(.text .text.*) }
    .rodata : { *(.rodata .rodata.*) }
    .data : { *(.data .data.*) }
    .bss : { *(.bss .bss.*) *(COMMON) }
    .heap (NOLOAD) : ALIGN(16) { heap_begin = .; . += 0x120000; heap_end = .; }
    .stack (NOLOAD) : ALIGN(16) { stack_begin = .; . += 0x10000; stack_end = .; }
    kept_begin = 0x40200000;
    /DISCARD/ : { *(.comment) *(.note .note.*) *(.eh_frame .eh_frame_hdr) }
}
