/* Boot at EL2, the vectors, and the way into the guest and back. */

    .section .text.start, "ax"
    .global _start
_start:
    ldr x0, =stack_top
    mov sp, x0
    adr x0, vectors
    msr VBAR_EL2, x0
    isb
    bl monitor

/* void enter(uint64_t x[31]): the guest runs with these registers, where ELR_EL2 and SPSR_EL2 say, and at its next trap enter returns
   with the registers that it had. The stack holds what a C function keeps, and x itself: the trap finds SP as it was at the ERET. */
    .global enter
enter:
    stp x19, x20, [sp, #-112]!
    stp x21, x22, [sp, #16]
    stp x23, x24, [sp, #32]
    stp x25, x26, [sp, #48]
    stp x27, x28, [sp, #64]
    stp x29, x30, [sp, #80]
    str x0, [sp, #96]
    ldp x2, x3, [x0, #16]
    ldp x4, x5, [x0, #32]
    ldp x6, x7, [x0, #48]
    ldp x8, x9, [x0, #64]
    ldp x10, x11, [x0, #80]
    ldp x12, x13, [x0, #96]
    ldp x14, x15, [x0, #112]
    ldp x16, x17, [x0, #128]
    ldp x18, x19, [x0, #144]
    ldp x20, x21, [x0, #160]
    ldp x22, x23, [x0, #176]
    ldp x24, x25, [x0, #192]
    ldp x26, x27, [x0, #208]
    ldp x28, x29, [x0, #224]
    ldr x30, [x0, #240]
    ldp x0, x1, [x0]
    eret

trapped:
    stp x0, x1, [sp, #-16]!
    ldr x0, [sp, #16 + 96]
    stp x2, x3, [x0, #16]
    stp x4, x5, [x0, #32]
    stp x6, x7, [x0, #48]
    stp x8, x9, [x0, #64]
    stp x10, x11, [x0, #80]
    stp x12, x13, [x0, #96]
    stp x14, x15, [x0, #112]
    stp x16, x17, [x0, #128]
    stp x18, x19, [x0, #144]
    stp x20, x21, [x0, #160]
    stp x22, x23, [x0, #176]
    stp x24, x25, [x0, #192]
    stp x26, x27, [x0, #208]
    stp x28, x29, [x0, #224]
    str x30, [x0, #240]
    ldp x1, x2, [sp], #16
    stp x1, x2, [x0]
    ldp x21, x22, [sp, #16]
    ldp x23, x24, [sp, #32]
    ldp x25, x26, [sp, #48]
    ldp x27, x28, [sp, #64]
    ldp x29, x30, [sp, #80]
    ldp x19, x20, [sp], #112
    ret

/* Sixteen entries of 128 bytes. The one at 0x600 is for a synchronous exception from a lower level in AArch32, which every trap of the
   guest is; no other is expected. */
    .balign 0x800
vectors:
    .rept 12
    .balign 0x80
    b unexpected
    .endr
    .balign 0x80
    b trapped
    .rept 3
    .balign 0x80
    b unexpected
    .endr

/* The guest's memory, and the program in it. */
    .section .guest, "aw"
    .balign 0x1000
    .global guest_memory
guest_memory:
    .incbin "guest.bin"
    .balign 0x4000
