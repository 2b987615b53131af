/* For worst.c on x86-64: a call on a stack of its own, and functions outside of the library on another one. */
    .set STACK, 16384

    .text
    .globl counted
    .type counted, @function
counted:
    push %rbx
    mov %rdi, %rbx
    mov %rsp, caller_stack(%rip)
    lea stacks + 2 * STACK - 16(%rip), %rsp
    mov 56(%rbx), %rax
    mov %rax, (%rsp)            /* the seventh argument */
    mov 48(%rbx), %r9
    mov 40(%rbx), %r8
    mov 32(%rbx), %rcx
    mov 24(%rbx), %rdx
    mov 16(%rbx), %rsi
    mov 8(%rbx), %rdi
    call *(%rbx)
    mov caller_stack(%rip), %rsp
    mov %eax, %eax
    mov %rax, (%rbx)
    xor %eax, %eax
    pop %rbx
    ret
    .size counted, . - counted

    .macro outside name
    .globl outside_\name
    .type outside_\name, @function
outside_\name:
    mov %rsp, inside_stack(%rip)
    lea stacks + STACK(%rip), %rsp
    call own_\name
    mov inside_stack(%rip), %rsp
    ret
    .size outside_\name, . - outside_\name
    .endm

    outside memcpy
    outside memmove
    outside memset
    outside alloc
    outside realloc
    outside dealloc

    .globl nothing
nothing:
    ret

    .globl copies_nothing
copies_nothing:
    xor %edx, %edx
    sub $8, %rsp
    call outside_memcpy
    add $8, %rsp
    ret

    .section .rodata
    .balign 8
    .globl plan
plan:
    .incbin PLAN

    .bss
    .balign 8
caller_stack:
    .skip 8
inside_stack:
    .skip 8

    .section .note.GNU-stack, "", @progbits
