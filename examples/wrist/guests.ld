/* The guests: each is linked for its own space and loaded into a frame that will be mapped there. */
SECTIONS {
    .scan 0x00001000 : AT(0x45000000) { */scan.o(.text.entry) */scan.o(.text .text.* .rodata .rodata.*) }
    .sync 0x40001000 : AT(0x46000000) { */sync.o(.text.entry) */sync.o(.text .text.* .rodata .rodata.*) }
    ASSERT(SIZEOF(.scan) <= 4096 && SIZEOF(.sync) <= 4096, "a guest's program is longer than its page")
}
INCLUDE arm/board/board.ld
