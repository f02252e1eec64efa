/* The guests with pages of 16 KiB: see guests.ld. */
SECTIONS {
    .scan 0x0000004000 : AT(0x45000000) { */scan.o(.text.entry) */scan.o(.text .text.* .rodata .rodata.*) }
    .sync 0x1000004000 : AT(0x46000000) { */sync.o(.text.entry) */sync.o(.text .text.* .rodata .rodata.*) }
    ASSERT(SIZEOF(.scan) <= 16384 && SIZEOF(.sync) <= 16384, "a guest's program is longer than its page")
}
INCLUDE arm/board/board.ld
