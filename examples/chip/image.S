// The memory image of the card that a new device gets.
    .section .rodata.image, "a"
    .balign 4
    .globl factory_image
factory_image:
    .incbin "factory.card"
    .section .note.GNU-stack, "", %progbits
