// The start of the image on qemu's board virt (aarch64, EL1).
    .section .text.start, "ax"
    .globl start
start:
    mov x0, #(3 << 20)          // compiled code may use the vector registers
    msr cpacr_el1, x0
    // Two regions of 1 GiB, each at its own address: devices, then memory, where an access need not be aligned.
    ldr x0, =regions
    mov x1, #0x401              // attribute 0, a block that may be accessed
    str x1, [x0]
    ldr x1, =0x40000705         // attribute 1, inner shareable
    str x1, [x0, #8]
    mov x1, #0xFF00             // attribute 0: device memory; 1: cached memory
    msr mair_el1, x1
    ldr x1, =0x803519           // addresses of 39 bits, one table
    msr tcr_el1, x1
    msr ttbr0_el1, x0
    isb
    mrs x1, sctlr_el1
    mov x2, #0x1005             // translation and both caches
    orr x1, x1, x2
    bic x1, x1, #2              // no check of alignment
    msr sctlr_el1, x1
    isb
    ldr x0, =stack_begin        // the stack is painted, so that its use can be measured
    ldr x1, =stack_end
    mov sp, x1
    ldr x2, =0xA5A5A5A5A5A5A5A5
paint:
    str x2, [x0], #8
    cmp x0, x1
    b.lo paint
    bl run
halt:
    wfi
    b halt

    .section .bss.regions, "aw", %nobits
    .balign 4096
regions:
    .skip 4096
