/* The memory of Arm's board MPS2: code from 0, RAM from 0x20000000. The words of the device stand behind the RAM. */
ENTRY(start)
SECTIONS
{
    . = 0;
    .vectors : { KEEP(*(.vectors)) }
    .text : { *(.text .text.*) }
    .rodata : { *(.rodata .rodata.*) }
    .ARM.exidx : { *(.ARM.exidx*) }
    . = 0x20000000;
    .data : { *(.data .data.*) }
    .bss : ALIGN(4) { bss_begin = .; *(.bss .bss.* COMMON) . = ALIGN(4); bss_end = .; }
    .stack (NOLOAD) : ALIGN(16) { stack_begin = .; . += 0x4000; stack_end = .; }
    .nvm 0x20200000 (NOLOAD) : { *(.nvm) }
    ASSERT(SIZEOF(.data) == 0, "the start copies no data")
}
