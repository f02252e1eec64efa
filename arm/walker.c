/* The machine beside the proved walk: the pools of crates/walker, made by the same calls, and what the machine makes of the same
 * addresses, in the lines of that program. arm/walker compares the two.
 *
 * Runs at EL2 on the board. AT S12E1R and AT S12E1W say whether an address may be read and written, where it leads and what memory
 * that is. Whether it may be run they do not say: arm/judge.c has a guest for that.
 *
 * The last two pools have the word of a block in a root of four levels, and in the root of 16 KiB tables. By our reading of Arm's manual it
 * is invalid where VTCR_EL2.DS is 0, and qemu 7.2 reads it as a block of 512 GiB, and of 64 GiB: a known difference, in arm/walker.qemu.
 * The library never writes that word. */
#include <stdbool.h>

#include "board.h"
#include "oakabut.h"

#define FRAME UINT64_C(0x80000000)
#define BLOCK UINT64_C(0x800007FD) /* the word of the block of 1 GiB below */
#define ACCESS_FLAG UINT64_C(0x400)

static uint64_t small[512 * 4] __attribute__((aligned(4096)));    /* four tables of 4 KiB */
static uint64_t large[2048 * 4] __attribute__((aligned(16384))); /* four of 16 KiB */
static uint64_t *pool;                                           /* one of the two */
static uint32_t list[4];
static oak_setup setup;
static uint64_t wrong; /* calls that were refused */
#define LENT pool, setup.granule / 8 * setup.tables, OAK_NO_WORDS, 0, list, setup.tables

static const uint64_t three[] = {0, 0xFFF, 0x1ABC, 0x2000, 0x3008, 0x200000, 0x201234, 0x3FFFFF, 0x400000, 0x7FFFFFF000, 0x8000000000};
static const uint64_t four[] = {0, 0x40000000, 0x7FFFFFFF, 0x80000000, 0xFFFFFFFFF123, 0x1000000000000};
static const uint64_t sixteen[] = {0,         0x3FFF,    0x5ABC,    0x8000,       0xC008,         0x2000000,
                                   0x2012345, 0x3FFFFFF, 0x4000000, 0x1000000000, 0x7FFFFFFFC123, 0x800000000000};

static uint64_t machine(uint64_t address, bool write) {
    if (write) __asm__ volatile("at s12e1w, %0\n isb" : : "r"(address) : "memory");
    else __asm__ volatile("at s12e1r, %0\n isb" : : "r"(address) : "memory");
    return READ_REGISTER(par_el1);
}

/* PAR_EL1's ATTR: stage 1 says 'normal, write-back', so what it shows is what stage 2 says */
static const char *memory(uint64_t par) {
    switch (par >> 56) {
    case 0x00: return "Device-nGnRnE";
    case 0x04: return "Device-nGnRE";
    case 0x08: return "Device-nGRE";
    case 0x0C: return "Device-GRE";
    case 0x44: return "Normal non-cacheable non-cacheable";
    case 0xBB: return "Normal write-through write-through";
    case 0xFF: return "Normal write-back write-back";
    default: return "some other memory";
    }
}

static const char *shared(uint64_t par) {
    static const char *const kinds[] = {"non-shareable", "unpredictable", "outer shareable", "inner shareable"};
    return kinds[par >> 7 & 3];
}

static void line(uint64_t address) {
    uint64_t read = machine(address, false), write = machine(address, true), either = read & 1 ? write : read;
    if (either & 1) say("  %x: fault\n", address);
    else
        say("  %x: %x %s%s %s %s\n", address, (either & UINT64_C(0x000FFFFFFFFFF000)) + address % 4096, read & 1 ? "-" : "r",
            write & 1 ? "-" : "w", memory(either), shared(either));
}

static void lines(const char *title, const uint64_t *addresses, size_t count) {
    stage2_changed();
    say("%s\n", title);
    for (size_t i = 0; i < count; i++) line(addresses[i]);
}
#define THREE three, sizeof three / sizeof *three
#define FOUR four, sizeof four / sizeof *four
#define SIXTEEN sixteen, sizeof sixteen / sizeof *sixteen

static void format(uint64_t levels, uint64_t granule) {
    pool = granule == OAK_16_KIB ? large : small;
    wrong += oak_format(levels, (uint64_t)pool, 4, 0, 0, granule, pool, granule / 8 * 4, OAK_NO_WORDS, 0, list, 4, &setup) != 0;
    stage2_on(levels, granule, (uint64_t)pool);
}

static void map(uint64_t address, uint64_t frame, uint64_t size, uint64_t attributes) {
    oak_mapped answer;
    wrong += oak_map(&setup, LENT, address, frame, size, attributes, &answer) != 0;
    setup = answer.setup;
}

static void unmap(uint64_t address) {
    oak_unmapped answer;
    wrong += oak_unmap(&setup, LENT, address, &answer) != 0;
    setup = answer.setup;
}

/* the cases with pages of one size, a block of another, and the last page of the space */
static void cases(uint64_t page, uint64_t block, uint64_t last, const uint64_t *addresses, size_t count) {
    format(3, page);
    lines("case 1, a fresh format:", addresses, count);
    map(0, FRAME, page, 3);
    map(page, FRAME + page, page, 5);
    map(block, FRAME + block, block, 3);
    map(3 * page, 0x9000000, page, 11);
    lines("case 4, two pages and a block, with a device page:", addresses, count);
    unmap(0);
    unmap(page);
    unmap(3 * page);
    lines("case 9, the block alone:", addresses, count);
    unmap(block);
    map(last, FRAME, page, 3);
    lines("case 11, the last page of the space:", addresses, count);
}

static void four_levels(void) {
    format(4, OAK_4_KIB);
    map(OAK_1_GIB, FRAME, OAK_1_GIB, 7);
    map(0xFFFFFFE00000, FRAME, OAK_2_MIB, 1);
    lines("four levels, a block of 1 GiB and the last of 2 MiB:", FOUR);
    small[513] = BLOCK - ACCESS_FLAG;
    lines("the first without its access flag:", FOUR);
}

/* words that the library never writes, in the last two pools */
static void blocks_in_the_root(void) {
    stage2_on(4, OAK_4_KIB, (uint64_t)small);
    small[0] = BLOCK;
    lines("a block of 512 GiB, which there is not:", FOUR);
    stage2_on(3, OAK_16_KIB, (uint64_t)large);
    large[1] = BLOCK;
    lines("a block of 64 GiB, which there is not:", SIXTEEN);
}

int main(void) {
    cases(OAK_4_KIB, OAK_2_MIB, 0x7FFFFFF000, THREE);
    four_levels();
    say("with pages of 16 KiB:\n");
    cases(OAK_16_KIB, OAK_32_MIB, 0x7FFFFFFFC000, SIXTEEN);
    blocks_in_the_root();
    if (wrong != 0) say("%u calls were refused\n", wrong);
    return 0;
}
