/* From the first instruction to main(), on an ARMv8-A processor that begins at EL1 or EL2, with its MMU and caches off.
 *
 * The library needs three things of what is set here: little-endian data, floating point and SIMD registers that may be used
 * (LLVM moves memory by them), and accesses that need not be aligned. The last one holds only for memory of the kind Normal,
 * so the MMU is on: with the MMU off every access is of the kind Device, and an unaligned one faults. */

    .section .start, "ax"
    .globl _start
_start:
    mrs x0, mpidr_el1           /* one processor goes on, any other one waits */
    and x0, x0, #0xff
    cbnz x0, stop

    mrs x0, CurrentEL
    cmp x0, #(2 << 2)
    b.ne in_el1
    mov x0, #(1 << 31)          /* HCR_EL2.RW: EL1 is AArch64 */
    msr hcr_el2, x0
    mov x0, #0x33ff             /* CPTR_EL2: no trap of floating point and SIMD */
    msr cptr_el2, x0
    mrs x0, cnthctl_el2
    orr x0, x0, #3              /* EL1 may read the timer */
    msr cnthctl_el2, x0
    msr cntvoff_el2, xzr
    mov x0, #0x3c5              /* EL1 with its own stack pointer, all interrupts masked */
    msr spsr_el2, x0
    adr x0, in_el1
    msr elr_el2, x0
    eret

in_el1:
    mov x0, #(3 << 20)          /* CPACR_EL1.FPEN: floating point and SIMD are not trapped */
    msr cpacr_el1, x0
    adrp x0, vectors
    add x0, x0, :lo12:vectors
    msr vbar_el1, x0
    isb

    adrp x0, stack_end
    add x0, x0, :lo12:stack_end
    mov sp, x0

    adrp x0, bss_start          /* .bss is all zeros; its ends are multiples of 16 */
    add x0, x0, :lo12:bss_start
    adrp x1, bss_end
    add x1, x1, :lo12:bss_end
1:  cmp x0, x1
    b.hs 2f
    stp xzr, xzr, [x0], #16
    b 1b
2:

    /* The first GiB is Device (the UART and the rest of the board), the second one Normal (RAM), each at its own address. */
    adrp x0, translation
    add x0, x0, :lo12:translation
    ldr x1, =0x0060000000000401 /* not executable, accessed, attributes 0, a block */
    str x1, [x0]
    ldr x1, =0x0000000040000705 /* accessed, inner shareable, attributes 1, a block */
    str x1, [x0, #8]
    dsb sy
    msr ttbr0_el1, x0
    ldr x1, =0xff00             /* attributes 0: Device-nGnRnE; 1: Normal, write-back */
    msr mair_el1, x1
    ldr x1, =0x00803520         /* addresses of 32 bits, granules of 4 KiB, cached walks, none by TTBR1 */
    msr tcr_el1, x1
    tlbi vmalle1
    ic iallu
    dsb sy
    isb
    ldr x1, =0x30d01805         /* SCTLR_EL1: MMU, caches; A is 0, so accesses need not be aligned; EE is 0: little-endian */
    msr sctlr_el1, x1
    isb

    bl main
stop:
    wfe
    b stop

/* An exception: ESR, ELR and FAR stay in x0 to x2, for a debugger, and nothing goes on. */
exception:
    mrs x0, esr_el1
    mrs x1, elr_el1
    mrs x2, far_el1
    b stop

    .section .vectors, "ax"
    .balign 2048
vectors:
    .rept 16
    b exception
    .balign 128
    .endr

    .section .bss.translation, "aw", %nobits
    .balign 4096
translation:
    .skip 4096
