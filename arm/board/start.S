// Where the board starts us, at EL2, and the way to a guest and back.

    .section .text.start, "ax"
    .global _start
_start:
    adrp x0, stack_top
    add  x0, x0, :lo12:stack_top
    mov  sp, x0
    adr  x0, vectors
    msr  vbar_el2, x0
    isb
    bl   main
    bl   power_off

// struct registers of board.h: x0 to x30 at 0 to 240, then sp, pc and pstate
    .equ THE_SP, 248
    .equ THE_PSTATE, 264

    .text
    .global run_guest
run_guest:                              // x0: its registers
    stp  x29, x30, [sp, #-112]!         // what a C function must keep, and x0, stay on our stack
    stp  x19, x20, [sp, #16]
    stp  x21, x22, [sp, #32]
    stp  x23, x24, [sp, #48]
    stp  x25, x26, [sp, #64]
    stp  x27, x28, [sp, #80]
    str  x0, [sp, #96]
    ldp  x1, x2, [x0, #THE_SP]
    ldr  x3, [x0, #THE_PSTATE]
    msr  sp_el1, x1
    msr  elr_el2, x2
    msr  spsr_el2, x3
    ldp  x2, x3, [x0, #16]
    ldp  x4, x5, [x0, #32]
    ldp  x6, x7, [x0, #48]
    ldp  x8, x9, [x0, #64]
    ldp  x10, x11, [x0, #80]
    ldp  x12, x13, [x0, #96]
    ldp  x14, x15, [x0, #112]
    ldp  x16, x17, [x0, #128]
    ldp  x18, x19, [x0, #144]
    ldp  x20, x21, [x0, #160]
    ldp  x22, x23, [x0, #176]
    ldp  x24, x25, [x0, #192]
    ldp  x26, x27, [x0, #208]
    ldp  x28, x29, [x0, #224]
    ldr  x30, [x0, #240]
    ldp  x0, x1, [x0]
    eret

guest_trapped:
    stp  x0, x1, [sp, #-16]!
    ldr  x0, [sp, #16 + 96]
    stp  x2, x3, [x0, #16]
    stp  x4, x5, [x0, #32]
    stp  x6, x7, [x0, #48]
    stp  x8, x9, [x0, #64]
    stp  x10, x11, [x0, #80]
    stp  x12, x13, [x0, #96]
    stp  x14, x15, [x0, #112]
    stp  x16, x17, [x0, #128]
    stp  x18, x19, [x0, #144]
    stp  x20, x21, [x0, #160]
    stp  x22, x23, [x0, #176]
    stp  x24, x25, [x0, #192]
    stp  x26, x27, [x0, #208]
    stp  x28, x29, [x0, #224]
    str  x30, [x0, #240]
    ldp  x1, x2, [sp], #16
    stp  x1, x2, [x0]
    mrs  x1, sp_el1
    mrs  x2, elr_el2
    mrs  x3, spsr_el2
    stp  x1, x2, [x0, #THE_SP]
    str  x3, [x0, #THE_PSTATE]
    ldp  x19, x20, [sp, #16]
    ldp  x21, x22, [sp, #32]
    ldp  x23, x24, [sp, #48]
    ldp  x25, x26, [sp, #64]
    ldp  x27, x28, [sp, #80]
    ldp  x29, x30, [sp], #112
    ret

// The exception vectors: a synchronous exception of an AArch64 guest comes to the ninth, at 0x400. No other is expected.
    .balign 2048
vectors:
    .rept 8
    b    unexpected
    .balign 128
    .endr
    b    guest_trapped
    .balign 128
    .rept 7
    b    unexpected
    .balign 128
    .endr
