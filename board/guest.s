/* The guest: a program in A32 and T32 that has nothing but its four pages, the emulated card, and what the monitor does for it.

   It runs in Supervisor mode with stage 1 off, and says what it found. The monitor's services go by HVC's immediate. */
    .syntax unified
    .arch armv8-a
    .arch_extension virt

    .equ CARD, 0x0A000000       @ the card: byte n of its first 64 is 0x80 + n
    .equ LINES, 0x40            @ its interrupt lines: a 1 in bit 0 raises IRQ, in bit 1 FIQ
    .equ NOTHING, 0x0B000000    @ here is neither memory nor a device
    .equ NO_TABLE, 0x0C000000   @ here stage 2 has a table that lies outside memory

    .equ END, 0x100
    .equ EDITION, 0x101         @ exchanges r1 with the edition by which traps are read
    .equ RETURN, 0x102          @ a return from the current mode, to its link register less r1

@ HVC 0 to 7: says the text at r0, and so many values from r1 on.
    .macro say values, text
    adr r0, text\@
    hvc #\values
    b past\@
text\@:
    .asciz "\text"
    .balign 4
past\@:
    .endm

@ QEMU 7.2 keeps SPSR of the mode that the guest is in where EL2's registers don't reach it, so that in a mode that the monitor enters the
@ guest finds SPSR of the mode that it left. Before a trap whose handler returns by its own SPSR, SPSR_svc is made the guest's status, so
@ that both are the same word. The other handlers return by the monitor, which finds what it wrote.
    .macro own_status
    mrs r12, cpsr
    msr spsr_cxsf, r12
    .endm

    .text
    .arm
    .global vectors
vectors:
    b start
    b undefined
    b .
    b prefetch_abort
    b data_abort
    b .
    b irq
    b fiq

undefined:
    sub r1, lr, r6
    say 1, "undefined, link past the instruction by"
    sub r1, lr, r6
    sub r1, r1, #4              @ 0 in A32; in T32 the link is 2 bytes short of the next instruction
    hvc #RETURN

prefetch_abort:
    mrc p15, 0, r1, c5, c0, 1
    mrc p15, 0, r2, c6, c0, 2
    sub r3, lr, r8
    say 3, "prefetch abort, IFSR IFAR link-PC"
    sub r1, lr, r5              @ to r5
    hvc #RETURN

data_abort:
    mrc p15, 0, r1, c5, c0, 0
    mrc p15, 0, r2, c6, c0, 0
    mrs r3, spsr
    sub r4, lr, r6
    say 4, "data abort, DFSR DFAR SPSR link-PC"
    subs pc, lr, #4             @ past the instruction

irq:
    say 0, "in IRQ mode"
    mov r1, #4
    hvc #RETURN

fiq:
    mov r9, #CARD
    ldr r8, [r9], #4            @ R8 and R9 of FIQ mode
    mov r1, r8
    mov r2, r9
    say 2, "in FIQ mode, R8 R9"
    subs pc, lr, #4

start:
    ldr r0, =vectors
    mcr p15, 0, r0, c12, c0, 0  @ VBAR
    ldr r7, =CARD

@ The chip describes the access (ISV 1).
    ldr r1, [r7, #0x00]
    ldrb r2, [r7, #0x05]
    ldrsb r3, [r7, #0x06]
    ldrh r4, [r7, #0x08]
    ldrsh r5, [r7, #0x0a]
    say 5, "A32 loads"

    ldr r1, =0x11223344
    ldr r2, =0xaabbccdd
    mov r3, #0x55
    str r1, [r7, #0x10]
    strh r2, [r7, #0x12]
    strb r3, [r7, #0x11]
    ldr r1, [r7, #0x10]
    say 1, "A32 stores, read back"

    blx 1f
    .thumb
1:  cmp r7, r7
    ite eq
    ldreq r1, [r7]              @ 2 bytes long
    ldrne r1, [r7, #4]          @ isn't executed
    ittt eq
    ldrsheq.w r2, [r7, #0x0a]   @ 4 bytes long
    strheq r2, [r7, #0x14]
    ldrbeq r3, [r7, #0x14]
    blx 2f
    .arm
2:  say 3, "T32 in IT blocks"

    setend be
    ldr r1, [r7, #0x00]
    ldrsh r2, [r7, #0x0a]
    ldr r3, =0x04030201         @ 0x01020304: the literal is read big-endian too
    str r3, [r7, #0x18]
    setend le
    ldr r3, [r7, #0x18]
    say 3, "big-endian"

@ The chip doesn't (ISV 0).
    mov r6, r7
    ldmia r6!, {r1-r3, lr}
    mov r4, lr
    sub r5, r6, r7
    say 5, "LDM with write-back"

    add r6, r7, #0x2c
    stmdb r6!, {r1-r3}
    ldrd r2, r3, [r6, #4]
    ldr r1, [r6], #8
    sub r4, r6, r7
    say 4, "STM, LDRD, post-indexed"

    bl near_card
    mov r1, r2
    mov r2, r3
    say 2, "LDRD literal, big-endian"

    mvn r1, #0
    cmp r7, r7
    ldrne r1, [r7]
    mrcne p15, 0, r1, c1, c0, 1
    say 1, "conditions that fail"

    mov r1, #0x42
    mcr p15, 0, r1, c1, c0, 1   @ ACTLR
    mrc p15, 0, r2, c1, c0, 1
    mrrc p15, 0, r3, r4, c14    @ CNTPCT
    wfi
    say 4, "coprocessor registers"

@ The chip's own bits of the status word, through a trap and back.
    mrs r1, cpsr
    mrc p15, 0, r2, c0, c1, 0   @ ID_PFR0.DIT
    tst r2, #0x0f000000
    orrne r1, r1, #0x00200000
    mrc p15, 0, r2, c0, c1, 7   @ ID_MMFR3.PAN
    tst r2, #0x000f0000
    orrne r1, r1, #0x00400000
    mrc p15, 0, r2, c0, c3, 4   @ ID_PFR2.SSBS
    tst r2, #0x000000f0
    orrne r1, r1, #0x00800000
    msr cpsr_fsxc, r1
    ldrb r2, [r7]
    mrs r2, cpsr
    say 2, "status before and after a trap"

@ What the monitor answers by an exception.
    cpsie a
    ldr r8, =NOTHING
    own_status
    adr r6, 3f
3:  ldr r1, [r8, #4]

    mov r1, #0x80000000
    mcr p15, 0, r1, c2, c0, 2   @ TTBCR.EAE: the long format
    own_status
    adr r6, 4f
4:  str r1, [r8, #8]
    mov r1, #0
    mcr p15, 0, r1, c2, c0, 2

    adr r5, 5f
    bx r8
5:
    adr r6, 6f
6:  mrc p15, 0, r1, c0, c0, 6   @ REVIDR, of which the monitor has none

    blx 7f
    .thumb
7:  adr.w r6, 1f
1:  hvc #0x777                  @ no service
    mrs r12, cpsr
    orr r12, r12, #0x20         @ T, which is read as 0
    msr spsr_cxsf, r12
    adr.w r6, 1f
    nop
1:  ldrd r2, r3, [r7]           @ in T32 no word is described
    blx 2f
    .arm
2:

@ IRQ and FIQ wait, and I is masked: FIQ comes. FIQ waits again, and F is masked: IRQ comes.
    cpsie f
    own_status
    mov r1, #3
    str r1, [r7, #LINES]
    cpsid f
    cpsie i
    mov r1, #2
    str r1, [r7, #LINES]

@ IRQ waits again, and both are masked: nothing comes. Then neither is: FIQ comes, which waited longer, and then IRQ.
    cpsid i
    mov r1, #1
    str r1, [r7, #LINES]
    cpsie if
    own_status
    wfi
    wfi
    cpsid if

@ A trap that edition 1 doesn't have: an access described (ISV 1) with an external abort on the walk, which RAS took away.
    mov r1, #1
    hvc #EDITION
    mov r9, r1
    ldr r8, =NO_TABLE
    own_status
    adr r6, 3f
3:  ldr r1, [r8]
    mov r1, r9
    hvc #EDITION

    hvc #END
    .ltorg

@ From 0x09FFFFC0: PC of the load is 0x09FFFFCC, and its place is CARD + 8.
    .section .near, "ax"
    .arm
near_card:
    setend be
    ldrd r2, r3, [pc, #0x3c]
    setend le
    bx lr
