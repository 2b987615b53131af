/* For worst.c on a bare aarch64: a call on a stack of its own with its instructions counted, and functions outside of the
 * library on another one, uncounted. The counter is that of the performance monitors (event INST_RETIRED). */
    .set STACK, 16384

    .macro address register, name
    adrp \register, \name
    add \register, \register, :lo12:\name
    .endm

    .text
    .globl counted
counted:
    stp x29, x30, [sp, #-32]!
    stp x19, x20, [sp, #16]
    mov x19, x0
    mov x20, sp

    mov x9, #1                  /* one counter, which PMCR_EL0.E starts and stops */
    msr pmcntenset_el0, x9
    mov x9, #8
    msr pmevtyper0_el0, x9
    msr pmcr_el0, xzr
    msr pmevcntr0_el0, xzr
    isb

    address x9, stacks
    add x9, x9, #(2 * STACK)
    mov sp, x9
    ldp x16, x0, [x19]
    ldp x1, x2, [x19, #16]
    ldp x3, x4, [x19, #32]
    ldp x5, x6, [x19, #48]
    mov x17, #1
    msr pmcr_el0, x17
    blr x16
    msr pmcr_el0, xzr
    mov sp, x20
    mov w0, w0
    str x0, [x19]
    mrs x0, pmevcntr0_el0
    ldp x19, x20, [sp, #16]
    ldp x29, x30, [sp], #32
    ret

    .macro outside name
    .globl outside_\name
outside_\name:
    msr pmcr_el0, xzr
    address x16, inside
    mov x17, sp
    stp x17, x30, [x16]
    address x17, stacks
    add x17, x17, #STACK
    mov sp, x17
    bl own_\name
    address x16, inside
    ldp x17, x30, [x16]
    mov sp, x17
    mov x17, #1
    msr pmcr_el0, x17
    ret
    .endm

    outside memcpy
    outside memmove
    outside memset
    outside alloc
    outside realloc
    outside dealloc

    .globl nothing
nothing:
    ret

    .globl copies_nothing
copies_nothing:
    stp x29, x30, [sp, #-16]!
    mov x2, #0
    bl outside_memcpy
    ldp x29, x30, [sp], #16
    ret

    .section .rodata
    .balign 16
    .globl plan
plan:
    .incbin PLAN

    .bss
    .balign 16
inside:
    .skip 16
