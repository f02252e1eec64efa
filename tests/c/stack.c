/* No call uses more than 8 KiB of stack. Each call is made on a stack of its own that was painted before, and the paint that is gone is counted:
 * on full pools of 512 tables in two regions, cyclic ones and nonsense, three and four levels, and with the larger granule. The last line is
 * `N passed, M failed`. */
#define _XOPEN_SOURCE 700
#include <stdint.h>
#include <stdio.h>
#include <string.h>
#include <ucontext.h>

#include "oakabut.h"

enum { FIRST = 300, SECOND = 212, TABLES = FIRST + SECOND, MOST_ENTRIES = 2048, STACK = 65536, MOST = 8192, PAINT = 0xA5, KNOWN = 4000, ROOM = 700 };

#define BASE UINT64_C(0x40000000)
#define SECOND_BASE UINT64_C(0x50000000)

static uint64_t words[FIRST * MOST_ENTRIES], second[SECOND * MOST_ENTRIES];
static uint32_t list[TABLES];
#define LENT words, FIRST * entries, second, SECOND * entries, list, TABLES
static oak_setup setup;
static uint64_t result, address, frame, size, length, attributes, levels, granule, entries;
static unsigned char stack[STACK] __attribute__((aligned(64)));
static ucontext_t here, there;

static void nothing(void) {}
static void known(void) { /* uses KNOWN bytes and little more */
    volatile unsigned char bytes[KNOWN];
    for (int i = 0; i < KNOWN; i++) bytes[i] = 1;
    result = bytes[KNOWN - 1];
}
static void do_format(void) { result = oak_format(levels, BASE, FIRST, SECOND_BASE, SECOND, granule, LENT, &setup); }
static void do_add(void) { /* to the setup without its second region */
    oak_setup one = {setup.levels, setup.base, setup.tables, setup.free % FIRST, 0, 0, setup.granule}, grown;
    result = oak_add(&one, LENT, SECOND_BASE, SECOND, &grown);
}
static void do_map(void) {
    oak_mapped m;
    result = oak_map(&setup, LENT, address, frame, size, attributes, &m);
    setup = m.setup;
}
static void do_unmap(void) {
    oak_unmapped u;
    result = oak_unmap(&setup, LENT, address, &u);
    setup = u.setup;
}
static void do_map_range(void) {
    oak_mapped m;
    result = oak_map_range(&setup, LENT, address, frame, length, attributes, &m);
    setup = m.setup;
}
static void do_unmap_range(void) {
    oak_removed r;
    result = oak_unmap_range(&setup, LENT, address, length, &r);
    setup = r.setup;
}
static void do_query(void) {
    oak_found f;
    result = oak_query(&setup, LENT, address, &f);
}
static void do_audit(void) {
    oak_audited a;
    result = oak_audit(&setup, LENT, &a);
}
static void do_list(void) {
    static uint64_t one[ROOM], other[ROOM];
    oak_listed l;
    result = oak_list(&setup, LENT, address, one, ROOM, other, ROOM, &l);
}

/* the bytes of stack that a function used, the switch to it counted */
static size_t used(void (*call)(void)) {
    size_t clean = 0;
    memset(stack, PAINT, STACK);
    getcontext(&there);
    there.uc_stack.ss_sp = stack;
    there.uc_stack.ss_size = STACK;
    there.uc_link = &here;
    makecontext(&there, call, 0);
    swapcontext(&here, &there);
    while (clean < STACK && stack[clean] == PAINT) clean++;
    return STACK - clean;
}

enum { FORMAT, MAP, UNMAP, QUERY, AUDIT, ADD, LIST, MAP_RANGE, UNMAP_RANGE, SWITCH, MEASURE, CALLS };
static size_t worst[CALLS]; /* of the nine calls, of the switch alone and of `known` */
static const char *const names[SWITCH] = {"format", "map", "unmap", "query", "audit", "add", "list", "map_range", "unmap_range"};
static void (*const calls[CALLS])(void) = {do_format, do_map, do_unmap, do_query, do_audit, do_add, do_list, do_map_range, do_unmap_range, nothing, known};

static void make(int call) {
    size_t n = used(calls[call]);
    if (n > worst[call]) worst[call] = n;
}

static uint64_t seed = 1;
static uint64_t next(void) {
    seed ^= seed << 13;
    seed ^= seed >> 7;
    seed ^= seed << 17;
    return seed;
}

/* All calls on pools of so many levels and of a granule, whose tables of pages stand for 2^block bytes; how many answers were wrong. */
static int pools(uint64_t of_levels, uint64_t of_granule, unsigned block) {
    int wrong = 0;
    levels = of_levels, granule = of_granule, entries = granule / 8, size = granule;
    make(FORMAT);
    for (int i = 0; i < TABLES + 50; i++) { /* far apart, so that tables run out; then back again */
        address = ((uint64_t)i << block) + granule * (uint64_t)i;
        frame = UINT64_C(0x80000000) + granule * (uint64_t)i;
        attributes = (uint64_t)i % 16;
        make(MAP), make(QUERY);
        if (i % 50 == 0) make(AUDIT), make(LIST);
    }
    make(AUDIT), make(ADD); /* some words name tables of the second region, so this one gets 8 */
    if (result != OAK_REFUSED_DAMAGED) wrong++, printf("add: %u\n", (unsigned)result);
    for (int i = 0; i < TABLES + 50; i++) {
        address = ((uint64_t)i << block) + granule * (uint64_t)i;
        make(UNMAP), make(QUERY);
        if (i % 50 == 0) make(AUDIT), make(LIST);
    }
    make(AUDIT), make(FORMAT);
    for (int i = 0; i < FIRST - 10; i++) { /* the tables of the first region are taken first; then an add that is accepted */
        address = (uint64_t)i << block;
        make(MAP);
    }
    make(ADD);
    if (result != 0) wrong++, printf("add: %u\n", (unsigned)result);
    make(FORMAT);
    for (int i = 0; i < 24; i++) { /* ranges that take many tables, that find none, and that end in a mapping; then back again */
        address = ((uint64_t)i * 40 << block) - granule * (i > 0), frame = (UINT64_C(1) << 40) + granule * (uint64_t)(i % 3), attributes = 3;
        length = i % 8 == 7 ? UINT64_C(1) << 32 : (UINT64_C(25) << block) + granule * (uint64_t)(i % 2);
        make(MAP_RANGE), make(MAP_RANGE);
        if (i % 6 == 5) make(AUDIT), make(UNMAP_RANGE);
    }
    for (int i = 0; i < 24; i++) {
        address = ((uint64_t)i * 40 << block) - granule * (i > 0), length = UINT64_C(1) << 32;
        make(UNMAP_RANGE), make(UNMAP_RANGE);
    }
    make(FORMAT);
    for (int i = 0; i < 40; i++) { /* nonsense, and tables that name each other */
        for (uint64_t j = 0; j < FIRST * entries; j++) words[j] = i % 2 ? next() : BASE + 3 + granule * (next() % FIRST);
        for (uint64_t j = 0; j < SECOND * entries; j++) second[j] = i % 2 ? next() : SECOND_BASE + 3 + granule * (next() % SECOND);
        for (int j = 0; j < TABLES; j++) list[j] = (uint32_t)next();
        setup.free = (uint64_t)i;
        address = next() % (granule == OAK_16_KIB ? UINT64_C(1) << 47 : levels == 3 ? UINT64_C(1) << 39 : UINT64_C(1) << 48) / granule * granule;
        length = granule * (1 + next() % 4000);
        make(MAP), make(UNMAP), make(QUERY), make(AUDIT), make(ADD), make(LIST), make(MAP_RANGE), make(UNMAP_RANGE);
    }
    return wrong;
}

int main(void) {
    int failed = 0, passed = 0;
    make(SWITCH), make(MEASURE);
    failed += pools(3, OAK_4_KIB, 21);
    failed += pools(4, OAK_4_KIB, 21);
    failed += pools(3, OAK_16_KIB, 25);
    for (int call = 0; call < SWITCH; call++) {
        int fine = worst[SWITCH] < worst[call] && worst[call] - worst[SWITCH] <= MOST;
        printf("%s: %zu bytes of stack\n", names[call], worst[call] - worst[SWITCH]);
        if (fine) passed++;
        else failed++;
    }
    if (worst[SWITCH] + KNOWN <= worst[MEASURE] && worst[MEASURE] <= worst[SWITCH] + KNOWN + 256) passed++; /* the measure itself */
    else failed++, printf("a function of %d bytes: %zu, and the switch alone %zu\n", KNOWN, worst[MEASURE], worst[SWITCH]);
    printf("%d passed, %d failed\n", passed, failed);
    return failed != 0;
}
