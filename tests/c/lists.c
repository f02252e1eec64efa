/* oak_list, by numbers written down here.
 *
 * The pool, the two runs, the setup and the answer stand in one block with guard words between them. Before a call both runs and the
 * answer are blank, and the test says what they have to be after it; after the call the whole block is compared, so a word too many
 * anywhere is a failure. A call counts as four tests: its number, the answer, the two runs, and all the rest.
 * The last line is 'N passed, M failed'. */
#include <inttypes.h>
#include <stdbool.h>
#include <stdio.h>
#include <string.h>

#include "oakabut.h"

#define COUNT(a) (sizeof(a) / sizeof((a)[0]))
#define LIMIT (UINT64_C(1) << 48)
#define SPACE_3 (UINT64_C(1) << 39)
#define SPACE_16 (UINT64_C(1) << 47)
#define POOL UINT64_C(0x40000000)
#define MORE UINT64_C(0x50000000)
#define FRAME UINT64_C(0x80000000)
#define BLANK UINT64_C(0xA5A5A5A5A5A5A5A5)
enum { GUARD = 8, MOST_WORDS = 2048 * 6, MOST_ROOM = 1100 };

typedef struct {
    uint64_t words[GUARD + MOST_WORDS + GUARD];
    uint64_t second[GUARD + MOST_WORDS + GUARD];
    uint64_t setup[GUARD + 7 + GUARD];
    uint64_t places[GUARD + MOST_ROOM + GUARD];
    uint64_t entries[GUARD + MOST_ROOM + GUARD];
    uint64_t answer[GUARD + 3 + GUARD];
    uint32_t list[GUARD + 16 + GUARD];
} block;

static block is, want;
static oak_setup setup;
static size_t words_len, second_len, list_len;
static unsigned long passed, failed;

static void test(const char *call, const char *part, bool good) {
    if (good) {
        passed++;
        return;
    }
    failed++;
    printf("%s: %s wrong\n", call, part);
}

static uint64_t *words(void) { return is.words + GUARD; }
static uint64_t *second(void) { return second_len == 0 ? OAK_NO_WORDS : is.second + GUARD; }
static uint32_t *list(void) { return is.list + GUARD; }
#define LENT words(), words_len, second(), second_len, list(), list_len

/* ---- pools */

static void fresh(uint64_t levels, uint64_t tables, uint64_t second_tables, uint64_t granule) {
    memset(&is, 0xA5, sizeof is);
    words_len = granule / 8 * tables, second_len = granule / 8 * second_tables, list_len = tables + second_tables;
    uint64_t second_base = second_tables == 0 ? 0 : MORE;
    test("format", "the number is", oak_format(levels, POOL, tables, second_base, second_tables, granule, LENT, &setup) == 0);
}

static void map(uint64_t address, uint64_t frame, uint64_t size, uint64_t attributes) {
    oak_mapped m;
    test("map", "the number is", oak_map(&setup, LENT, address, frame, size, attributes, &m) == 0);
    setup = m.setup;
}

/* the pool of case 4, from the last address down: tables 1 and 2, table 3 free */
static void three_mappings(void) {
    fresh(3, 4, 0, OAK_4_KIB);
    map(0x200000, 0x80200000, OAK_2_MIB, 3);
    map(0x1000, 0x80001000, OAK_4_KIB, 5);
    map(0, FRAME, OAK_4_KIB, 3);
}

/* ---- a list, and what it has to be: so many numbers of both runs, then whether one is left out and its base, or a refusal */

static void list_of(uint64_t start, size_t places_len, size_t entries_len, uint64_t number, const uint64_t (*all)[2], size_t written, bool more,
                    uint64_t next) {
    char what[160];
    memset(is.places, 0xA5, sizeof is.places);
    memset(is.entries, 0xA5, sizeof is.entries);
    memset(is.answer, 0xA5, sizeof is.answer);
    memcpy(is.setup + GUARD, &setup, sizeof setup);
    want = is;
    for (size_t i = 0; i < written; i++) want.places[GUARD + i] = all[i][0], want.entries[GUARD + i] = all[i][1];
    want.answer[GUARD] = written, want.answer[GUARD + 1] = more, want.answer[GUARD + 2] = next;
    uint64_t got = oak_list((const oak_setup *)(const void *)(is.setup + GUARD), LENT, start, is.places + GUARD, places_len, is.entries + GUARD,
                            entries_len, (oak_listed *)(void *)(is.answer + GUARD));
    snprintf(what, sizeof what, "list from %#" PRIx64 " into %zu and %zu, got %" PRIu64 ", want %" PRIu64, start, places_len, entries_len, got, number);
    test(what, "the number is", got == number);
    test(what, "the answer is", memcmp(is.answer, want.answer, sizeof is.answer) == 0);
    test(what, "the two runs are", memcmp(is.places, want.places, sizeof is.places) == 0 && memcmp(is.entries, want.entries, sizeof is.entries) == 0);
    memcpy(want.answer, is.answer, sizeof is.answer);
    memcpy(want.places, is.places, sizeof is.places);
    memcpy(want.entries, is.entries, sizeof is.entries);
    test(what, "the pool or the setup is", memcmp(&is, &want, sizeof is) == 0);
}

static void refused(uint64_t start, size_t places_len, size_t entries_len, uint64_t number) { list_of(start, places_len, entries_len, number, 0, 0, false, 0); }

static void all_refused(uint64_t number) {
    static const uint64_t starts[] = {0, 1, 0x200000, 0x40000000, SPACE_3 - 1};
    for (size_t i = 0; i < COUNT(starts); i++) {
        refused(starts[i], 4, 4, number);
        refused(starts[i], 0, 0, number);
    }
}

/* Lists of these mappings, which are all of the pool's: from each start that matters, and into runs of each length up to one more. */
static void lists_are(const uint64_t (*all)[2], size_t count) {
    for (size_t first = 0; first <= count; first++) {
        for (size_t room = 0; room <= count - first + 1; room++) {
            size_t written = room < count - first ? room : count - first;
            bool more = written < count - first;
            uint64_t next = more ? OAK_PLACE_BASE(all[first + written][0]) : 0;
            if (first < count) list_of(OAK_PLACE_BASE(all[first][0]), room, room, 0, all + first, written, more, next);
            if (first == 0) {
                list_of(0, room, room, 0, all, written, more, next);
                continue;
            }
            uint64_t before = OAK_PLACE_BASE(all[first - 1][0]), size = OAK_PLACE_SIZE(all[first - 1][0]);
            list_of(before + 1, room, room, 0, all + first, written, more, next);
            list_of(before + size - 1, room, room, 0, all + first, written, more, next);
        }
    }
}

static const uint64_t three[][2] = {{12, UINT64_C(0x00400000800007FF)}, {0x1000 + 12, 0x8000177F}, {0x200000 + 21, UINT64_C(0x00400000802007FD)}};

static void the_cases(void) {
    fresh(3, 4, 0, OAK_4_KIB);
    lists_are(0, 0);
    list_of(SPACE_3 - 1, 4, 4, 0, 0, 0, false, 0);
    three_mappings();
    lists_are(three, 3);
    list_of(0, MOST_ROOM, MOST_ROOM, 0, three, 3, false, 0);
    list_of(0x2000, 4, 4, 0, three + 2, 1, false, 0);
    list_of(0x400000, 4, 4, 0, 0, 0, false, 0);
    list_of(SPACE_3 - 1, 0, 0, 0, 0, 0, false, 0);
}

static void all_sizes(void) {
    static const uint64_t sizes[][2] = {
        {30, 0x800007BD}, {0x40000000 + 21, UINT64_C(0x00400000802007FD)}, {0xC0000000 + 30, UINT64_C(0x0040FFFFC00004C1)},
        {SPACE_3 - 4096 + 12, UINT64_C(0x00400000800007FF)},
    };
    fresh(3, 5, 0, OAK_4_KIB);
    map(SPACE_3 - 4096, FRAME, OAK_4_KIB, 3);
    map(0xC0000000, LIMIT - OAK_1_GIB, OAK_1_GIB, 11);
    map(0, FRAME, OAK_1_GIB, 6);
    map(0x40000000, 0x80200000, OAK_2_MIB, 3);
    lists_are(sizes, COUNT(sizes));
}

static void four_levels(void) {
    static const uint64_t four[][2] = {
        {(UINT64_C(1) << 39) + 30, 0x800007BD}, {(UINT64_C(1) << 39) + 2 * OAK_1_GIB + 21, UINT64_C(0x00400000802007FD)},
        {LIMIT - 4096 + 12, UINT64_C(0x00400000800007FF)},
    };
    fresh(4, 7, 0, OAK_4_KIB);
    map(LIMIT - 4096, FRAME, OAK_4_KIB, 3);
    map((UINT64_C(1) << 39) + 2 * OAK_1_GIB, 0x80200000, OAK_2_MIB, 3);
    map(UINT64_C(1) << 39, FRAME, OAK_1_GIB, 6);
    lists_are(four, COUNT(four));
    refused(LIMIT, 4, 4, OAK_REFUSED_END);
}

static void two_regions(void) {
    static const uint64_t two[][2] = {{12, UINT64_C(0x00400000800007FF)}, {0x40000000 + 12, 0x8000177F}, {0x40001000 + 12, UINT64_C(0x00400000802007FF)}};
    fresh(3, 2, 3, OAK_4_KIB);
    map(0x40001000, 0x80200000, OAK_4_KIB, 3);
    map(0x40000000, 0x80001000, OAK_4_KIB, 5);
    map(0, FRAME, OAK_4_KIB, 3);
    lists_are(two, COUNT(two));
    for (size_t at = 0; at < 2 * 512; at += 17) { /* some words of the second region's tables that are in use */
        uint64_t was = second()[at];
        second()[at] = 5;
        refused(0x40001000, 4, 4, 8);
        second()[at] = was;
    }
    second_len--;
    refused(0, 4, 4, 1);
}

static void sixteen(void) {
    static const uint64_t large[][2] = {
        {14, UINT64_C(0x00400000800007FF)}, {OAK_32_MIB + 25, UINT64_C(0x00400000820007FD)}, {(UINT64_C(1) << 36) + 14, 0x8000477F},
    };
    fresh(3, 4, 2, OAK_16_KIB);
    map(UINT64_C(1) << 36, 0x80004000, OAK_16_KIB, 5);
    map(OAK_32_MIB, 0x82000000, OAK_32_MIB, 3);
    map(0, FRAME, OAK_16_KIB, 3);
    lists_are(large, COUNT(large));
    list_of(OAK_4_KIB, 4, 4, 0, large + 1, 2, false, 0);
    refused(SPACE_16, 4, 4, 4);
    list_of(SPACE_16 - 1, 4, 4, 0, 0, 0, false, 0);
    setup.granule = OAK_4_KIB;
    refused(0, 4, 4, 1);
}

/* 1, then 4, then 8 */
static void refusals(void) {
    static const uint64_t past[] = {SPACE_3, SPACE_3 + 0x1000, LIMIT, UINT64_C(1) << 63, UINT64_MAX};
    static const size_t unequal[][2] = {{0, 1}, {1, 0}, {3, 4}, {4, 3}, {MOST_ROOM, MOST_ROOM - 1}};
    static const oak_setup bad[] = {
        {2, POOL, 4, 1, 0, 0, 4096}, {5, POOL, 4, 1, 0, 0, 4096}, {3, POOL + 1, 4, 1, 0, 0, 4096}, {3, LIMIT, 4, 1, 0, 0, 4096},
        {3, POOL, 0, 1, 0, 0, 4096}, {3, POOL, 3, 1, 0, 0, 4096}, {3, POOL, 513, 1, 0, 0, 4096}, {3, POOL, 4, 4, 0, 0, 4096},
        {3, POOL, 4, UINT64_MAX, 0, 0, 4096}, {3, POOL, 4, 1, MORE, 0, 4096}, {3, POOL, 4, 1, MORE, 1, 4096}, {3, POOL, 4, 1, 0, 0, 0},
        {3, POOL, 4, 1, 0, 0, 8192}, {3, POOL, 4, 1, 0, 0, 16384}, {0, 0, 0, 0, 0, 0, 0},
    };
    three_mappings();
    oak_setup good = setup;
    for (int damaged = 0; damaged < 2; damaged++) {
        if (damaged) words()[1024 + 9] = 5;
        for (size_t i = 0; i < COUNT(past); i++) refused(past[i], 4, 4, 4);
        for (size_t i = 0; i < COUNT(unequal); i++) {
            refused(0, unequal[i][0], unequal[i][1], 1);
            refused(SPACE_3, unequal[i][0], unequal[i][1], 1);
        }
        for (size_t i = 0; i < COUNT(bad); i++) {
            setup = bad[i];
            all_refused(1);
            refused(UINT64_MAX, 4, 4, 1);
        }
        setup = good;
        for (words_len = 2047; words_len <= 2049; words_len += 2) all_refused(1);
        words_len = 2048;
        for (list_len = 3; list_len <= 5; list_len += 2) all_refused(1);
        list_len = 4, second_len = 512;
        all_refused(1);
        second_len = 0;
    }
    all_refused(8);
}

/* what is wrong in a table that is reached is 8, wherever it is and wherever the list starts; nothing else is */
static void damage(void) {
    static const size_t wrong[][2] = {
        {0, 5},           {1, 0x40001003},  {1, 0x40002003},   {2, 0x40000003}, {511, UINT64_MAX},    {512, 0x40001003},  {514, 0x40004003},
        {514, 0x3FFFF003}, {513, 0x802007FD}, {1023, 0x80001000}, {1024, 1},      {1024 + 511, 0x400000000000 + 3}, {1026, 0x40003003},
    };
    for (size_t i = 0; i < COUNT(wrong); i++) {
        three_mappings();
        words()[wrong[i][0]] = wrong[i][1];
        if (wrong[i][0] == 513) words()[513] = UINT64_C(0x00400000802007FF); /* a page's word one level up */
        all_refused(8);
    }
    three_mappings();
    words()[1536 + 7] = 5; /* a table that is free */
    list()[0] = 77;
    lists_are(three, 3);
    three_mappings();
    words()[514] = 0x40003003; /* a table that is empty */
    lists_are(three, 3);
    /* a frame in the pool is a frame */
    static const uint64_t own[][2] = {{0x40000000 + 30, UINT64_C(0x00400000400007FD)}};
    words()[1] = own[0][1];
    list_of(0x200001, 2, 2, 0, own, 1, false, 0);
}

/* all 512 pages of a table and some more; pages of a list of every length come to each of them once */
static void pages(void) {
    static uint64_t all[1030][2];
    fresh(3, 6, 0, OAK_4_KIB);
    for (uint64_t i = 0; i < COUNT(all); i++) {
        uint64_t address = i < 1024 ? i * 4096 : OAK_1_GIB * (i - 1000), size = i < 1024 ? OAK_4_KIB : OAK_1_GIB, frame = FRAME + OAK_1_GIB * i;
        map(address, frame, size, i % 16);
        all[i][0] = address + (i < 1024 ? 12 : 30), all[i][1] = oak_frame_word(frame, size, i % 16);
    }
    list_of(0, MOST_ROOM, MOST_ROOM, 0, all, COUNT(all), false, 0);
    list_of(0, COUNT(all), COUNT(all), 0, all, COUNT(all), false, 0);
    static const size_t lengths[] = {1, 2, 3, 7, 16, 511, 512, 513, 1029};
    for (size_t l = 0; l < COUNT(lengths); l++) {
        size_t room = lengths[l], done = 0;
        uint64_t start = 0;
        for (bool more = true; more; done += room) {
            size_t written = COUNT(all) - done < room ? COUNT(all) - done : room;
            more = done + written < COUNT(all);
            uint64_t next = more ? OAK_PLACE_BASE(all[done + written][0]) : 0;
            list_of(start, room, room, 0, all + done, written, more, next);
            start = next;
        }
    }
}

int main(void) {
    the_cases();
    all_sizes();
    four_levels();
    two_regions();
    sixteen();
    refusals();
    damage();
    pages();
    printf("%lu passed, %lu failed\n", passed, failed);
    return failed != 0;
}
