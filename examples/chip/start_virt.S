// The start on a RISC-V: the stack is painted, so that its use can be measured, and the data is zero.
    .section .text.start, "ax"
    .globl start
start:
    la sp, stack_end
    la t0, stack_begin
    li t1, 0xA5A5A5A5
paint:
    sw t1, 0(t0)
    addi t0, t0, 4
    bltu t0, sp, paint
    la t0, bss_begin
    la t2, bss_end
clear:
    bgeu t0, t2, begin
    sw zero, 0(t0)
    addi t0, t0, 4
    j clear
begin:
    call run
halt:
    wfi
    j halt
    .section .note.GNU-stack, "", %progbits
