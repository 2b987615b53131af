/* The memory of QEMU's machine `virt`: RAM begins at 0x40000000, where QEMU puts its device tree. */
ENTRY(_start)

MEMORY
{
    ram (rwx) : ORIGIN = 0x40200000, LENGTH = 96M
}

PHDRS
{
    code PT_LOAD FLAGS(5);
    data PT_LOAD FLAGS(6);
}

SECTIONS
{
    .text : {
        KEEP(*(.start))
        KEEP(*(.vectors))
        *(.text .text.*)
    } > ram :code
    .rodata : ALIGN(16) { *(.rodata .rodata.*) } > ram :code
    . = ALIGN(4096);
    .data : { *(.data .data.*) *(.got .got.*) } > ram :data
    .bss (NOLOAD) : ALIGN(16) {
        bss_start = .;
        *(.bss .bss.*) *(COMMON)
        . = ALIGN(16);
        bss_end = .;
    } > ram :data
    .stack (NOLOAD) : ALIGN(16) {
        . += DEFINED(STACK_OCTETS) ? STACK_OCTETS : 16384;
        stack_end = .;
    } > ram :data
    /DISCARD/ : { *(.comment) *(.note .note.*) *(.eh_frame .eh_frame_hdr) *(.gnu.*) }
}
