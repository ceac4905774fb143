/* The memory of qemu's board virt for RISC-V. The words of the device stand behind all else. */
ENTRY(start)
SECTIONS
{
    . = 0x80000000;
    .text : { *(.text.start) *(.text .text.*) }
    .rodata : { *(.rodata .rodata.* .srodata .srodata.*) }
    .data : { *(.data .data.* .sdata .sdata.*) }
    .bss : ALIGN(4) { bss_begin = .; *(.bss .bss.* .sbss .sbss.* COMMON) . = ALIGN(4); bss_end = .; }
    .stack (NOLOAD) : ALIGN(16) { stack_begin = .; . += 0x4000; stack_end = .; }
    .nvm 0x80200000 (NOLOAD) : { *(.nvm) }
    ASSERT(SIZEOF(.data) == 0, "the start copies no data")
}
