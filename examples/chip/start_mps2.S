// The start on a Cortex-M: the stack is painted, so that its use can be measured, and the data is zero.
    .syntax unified
    .thumb
    .section .vectors, "a"
    .word stack_end
    .word start
    .rept 14
    .word halt
    .endr
    .text
    .thumb_func
    .globl start
start:
    ldr r0, =stack_begin
    mov r1, sp
    ldr r2, =0xA5A5A5A5
paint:
    str r2, [r0]
    adds r0, r0, #4
    cmp r0, r1
    blo paint
    ldr r0, =bss_begin
    ldr r1, =bss_end
    movs r2, #0
clear:
    cmp r0, r1
    bhs begin
    str r2, [r0]
    adds r0, r0, #4
    b clear
begin:
    bl run
    .thumb_func
halt:
    wfi
    b halt
    .section .note.GNU-stack, "", %progbits
