/* Our program in the board's memory, which starts at 0x40000000 with the device tree. */
ENTRY(_start)
SECTIONS {
    .text 0x40200000 : AT(0x40200000) { *(.text.start) *(.text .text.*) }
    .rodata : ALIGN(4096) { *(.rodata .rodata.*) }
    .data : ALIGN(4096) { *(.data .data.*) }
    .bss : ALIGN(4096) { *(.bss .bss.* COMMON) . = ALIGN(4096); stack_bottom = .; . += 0x8000; stack_top = .; }
    /DISCARD/ : { *(.comment) *(.note.*) *(.eh_frame) }
}
