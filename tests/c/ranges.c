/* oak_map_range and oak_unmap_range, by numbers written down here and by the calls that a range stands for.
 *
 * The pool, the setup and the answer stand in one block with guard words between them. Before a call the answer is blank. What the block
 * has to be after it is made in a copy: where the call is refused the copy as it was, else by oak_map of each piece or oak_unmap of each
 * mapping. After the call the whole block is compared, so a word too many anywhere is a failure. A call counts as three tests: its
 * number, the answer, and all the rest.
 * The last line is 'N passed, M failed'. */
#include <inttypes.h>
#include <stdbool.h>
#include <stdio.h>
#include <string.h>

#include "oakabut.h"

#define COUNT(a) (sizeof(a) / sizeof((a)[0]))
#define LIMIT (UINT64_C(1) << 48)
#define SPACE_3 (UINT64_C(1) << 39)
#define SPACE_16 (UINT64_C(1) << 47)
#define POOL UINT64_C(0x40000000)
#define MORE UINT64_C(0x50000000)
#define FRAME UINT64_C(0x80000000)
#define K4 OAK_4_KIB
#define M2 OAK_2_MIB
#define G1 OAK_1_GIB
#define K16 OAK_16_KIB
#define M32 OAK_32_MIB
#define TOP (UINT64_MAX - 4095)
enum { GUARD = 8, MOST_WORDS = 512 * 32 };

typedef struct {
    uint64_t words[GUARD + MOST_WORDS + GUARD];
    uint64_t second[GUARD + MOST_WORDS + GUARD];
    uint64_t setup[GUARD + 7 + GUARD];
    uint64_t answer[GUARD + 9 + GUARD];
    uint32_t list[GUARD + 32 + GUARD];
} block;

static block is, want;
static oak_setup setup;
static size_t words_len, second_len, list_len;
static unsigned long passed, failed;

static void test(const char *call, const char *part, bool good) {
    if (good) {
        passed++;
        return;
    }
    failed++;
    printf("%s: %s wrong\n", call, part);
}

#define LENT_OF(b) (b).words + GUARD, words_len, second_len == 0 ? OAK_NO_WORDS : (b).second + GUARD, second_len, (b).list + GUARD, list_len

/* ---- pools */

static void fresh(uint64_t levels, uint64_t tables, uint64_t second_tables, uint64_t granule) {
    memset(&is, 0xA5, sizeof is);
    words_len = granule / 8 * tables, second_len = granule / 8 * second_tables, list_len = tables + second_tables;
    uint64_t second_base = second_tables == 0 ? 0 : MORE;
    test("format", "the number is", oak_format(levels, POOL, tables, second_base, second_tables, granule, LENT_OF(is), &setup) == 0);
}

static uint64_t size_at(uint64_t height) {
    static const uint64_t four[] = {K4, M2, G1}, sixteen[] = {K16, M32, 0};
    return setup.granule == K16 ? sixteen[height] : four[height];
}

static void before(block *b) {
    memset(b->answer, 0xA5, sizeof b->answer);
    memcpy(b->setup + GUARD, &setup, sizeof setup);
}

static void compare(const char *what, uint64_t got, uint64_t number) {
    test(what, "the number is", got == number);
    test(what, "the answer is", memcmp(is.answer, want.answer, sizeof is.answer) == 0);
    memcpy(want.answer, is.answer, sizeof is.answer);
    test(what, "the pool or the setup is", memcmp(&is, &want, sizeof is) == 0);
}

/* Maps a range, which has to answer the number, and so many tables where it is 0. */
static void maps(uint64_t address, uint64_t frame, uint64_t length, uint64_t attributes, uint64_t number, uint64_t taken) {
    char what[160];
    before(&is);
    want = is;
    oak_mapped m = {setup, 0}, one;
    for (uint64_t done = 0; number == 0 && done < length;) {
        uint64_t height = 2, size;
        while ((size = size_at(height)) == 0 || (address + done) % size != 0 || (frame + done) % size != 0 || size > length - done) height--;
        test("a piece", "the number is", oak_map(&m.setup, LENT_OF(want), address + done, frame + done, size, attributes, &one) == 0);
        m.setup = one.setup, m.taken += one.taken, done += size;
    }
    memcpy(want.answer + GUARD, &m, sizeof m);
    uint64_t got = oak_map_range((const oak_setup *)(const void *)(is.setup + GUARD), LENT_OF(is), address, frame, length, attributes,
                                 (oak_mapped *)(void *)(is.answer + GUARD));
    snprintf(what, sizeof what, "map %#" PRIx64 " to %#" PRIx64 ", length %#" PRIx64 ", got %" PRIu64 ", want %" PRIu64, address, frame, length,
             got, number);
    test(what, "the count is", m.taken == taken);
    compare(what, got, number);
    setup = m.setup;
}

/* Unmaps a range, which has to answer the number, and so many removed and given where it is 0. */
static void unmaps(uint64_t address, uint64_t length, uint64_t number, uint64_t removed, uint64_t given) {
    char what[160];
    before(&is);
    want = is;
    oak_removed m = {setup, 0, 0};
    oak_unmapped one;
    for (uint64_t at = address; number == 0 && at < address + length;) {
        uint64_t refusal = oak_unmap(&m.setup, LENT_OF(want), at, &one);
        test("a mapping", "the number is", refusal == 0 || refusal == OAK_REFUSED_EMPTY);
        m.setup = one.setup, m.removed += refusal == 0, m.given += one.given;
        at = refusal == 0 ? at + one.size : one.hole_base + one.hole_size;
    }
    memcpy(want.answer + GUARD, &m, sizeof m);
    uint64_t got = oak_unmap_range((const oak_setup *)(const void *)(is.setup + GUARD), LENT_OF(is), address, length,
                                   (oak_removed *)(void *)(is.answer + GUARD));
    snprintf(what, sizeof what, "unmap %#" PRIx64 ", length %#" PRIx64 ", got %" PRIu64 ", want %" PRIu64, address, length, got, number);
    test(what, "the counts are", m.removed == removed && m.given == given);
    compare(what, got, number);
    setup = m.setup;
}

static void word_is(size_t at, uint64_t word) { test("a word", "it is", is.words[GUARD + at] == word); }

/* ---- what is done */

static void pieces(void) {
    fresh(3, 8, 0, K4);
    maps(0x1000, 0x80001000, 2 * K4, 3, 0, 2);
    word_is(0, 0x40001003), word_is(512, 0x40002003);
    word_is(1025, UINT64_C(0x00400000800017FF)), word_is(1026, UINT64_C(0x00400000800027FF)), word_is(1027, 0);
    maps(M2, FRAME + M2, 2 * M2, 5, 0, 0);
    word_is(513, 0x8020077D), word_is(514, 0x8040077D), word_is(515, 0);
    maps(4 * M2 - K4, FRAME + 9 * M2 - K4, M2 + 3 * K4, 7, 0, 2);
    maps(G1, FRAME, G1, 6, 0, 0);
    maps(2 * G1, FRAME + M2, M2, 3, 0, 1);
    maps(4 * G1, 4 * G1, 4 * G1, 11, 0, 0);
    word_is(4, UINT64_C(0x00400001000004C1)), word_is(7, UINT64_C(0x00400001C00004C1));
    unmaps(0, 4 * G1, 0, 10, 5);
    unmaps(0, 4 * G1, 0, 0, 0);
    unmaps(4 * G1, 4 * G1, 0, 4, 0);
    test("the end", "free is", setup.free == 7);

    fresh(3, 24, 0, K4);
    maps(G1, FRAME, UINT64_C(40) << 20, 3, 0, 1);
    unmaps(G1, UINT64_C(40) << 20, 0, 20, 1);
    maps(G1, FRAME + K4, UINT64_C(40) << 20, 3, 0, 21);
    unmaps(G1 + K4, (UINT64_C(40) << 20) - 2 * K4, 0, 10238, 18);
    unmaps(0, 4 * G1, 0, 2, 3);
    maps(G1 - K4, FRAME + G1 - K4, G1 + M2 + 2 * K4, 3, 0, 4);
    unmaps(0, 4 * G1, 0, 4, 4);
    maps(SPACE_3 - 2 * K4, LIMIT - 2 * K4, 2 * K4, 3, 0, 2);
    maps(SPACE_3 - 4 * G1, LIMIT - 4 * G1, 3 * G1, 3, 0, 0);
    unmaps(SPACE_3 - 4 * G1, 4 * G1, 0, 5, 2);

    fresh(4, 8, 0, K4);
    maps(SPACE_3 - K4, FRAME, 2 * K4, 3, 0, 6);
    unmaps(SPACE_3 - 2 * G1, 4 * G1, 0, 2, 6);
    maps(LIMIT - K4, LIMIT - K4, K4, 15, 0, 3);
    unmaps(LIMIT - 4 * G1, 4 * G1, 0, 1, 3);
}

/* ---- what is refused, and in which order */

static void refusals(void) {
    static const struct {
        uint64_t address, frame, length, attributes, number;
    } maps_of[] = {
        {TOP + 1, TOP + 1, 0, 16, 2},
        {SPACE_3, FRAME, 0, 3, 2},
        {0, FRAME, 2048, 3, 2},
        {0, FRAME, K4 + 1, 16, 2},
        {0, FRAME, 4 * G1 + K4, 3, 2},
        {0, FRAME, UINT64_C(1) << 63, 3, 2},
        {0, FRAME, TOP, 3, 2},
        {TOP + 1, TOP + 1, K4, 16, 3},
        {TOP, FRAME, K4, 3, 4},
        {TOP, FRAME, 2 * K4, 3, 4},
        {SPACE_3 - K4, FRAME + 1, 2 * K4, 3, 4},
        {SPACE_3, POOL, K4, 3, 4},
        {0, LIMIT - K4, 2 * K4, 3, 4},
        {0, TOP, 2 * K4, 3, 4},
        {2048, POOL, K4, 3, 5},
        {0, POOL + 1, K4, 3, 5},
        {0, POOL, K4, 3, 11},
        {0, POOL - K4, 2 * K4, 3, 11},
        {0, POOL + 3 * K4, K4, 3, 11},
        {0, 0, 4 * G1, 3, 11},
        {0, FRAME, K4, 3, 6},
        {0, FRAME, M2, 3, 6},
        {0, FRAME, G1, 3, 6},
        {M2 + K4, FRAME, K4, 3, 6},
        {4 * K4, FRAME, M2, 3, 6},
        {8 * K4, FRAME, 8 * M2, 3, 6},
        {4 * M2 - K4, FRAME, 2 * K4, 3, 7},
        {G1, FRAME, K4, 3, 7},
        {G1, FRAME + K4, 4 * G1, 3, 7},
    };
    static const struct {
        uint64_t address, length, number;
    } unmaps_of[] = {
        {TOP + 1, 0, 2},      {0, K4 + 1, 2},        {0, 4 * G1 + K4, 2},      {0, UINT64_C(1) << 63, 2},      {TOP + 1, K4, 4}, {TOP, K4, 4},
        {TOP, 2 * K4, 4},     {SPACE_3, K4, 4},      {SPACE_3 - K4, 2 * K4, 4}, {2048, K4, 5},                  {1, M2, 5},       {M2, K4, 10},
        {M2 + K4, K4, 10},    {M2 + K4, M2 - K4, 10}, {0, M2 + K4, 10},        {2 * M2 - K4, K4, 10},          {2 * M2 - K4, 2 * K4, 10},
        {M2 - K4, 2 * K4, 10},
    };
    fresh(3, 4, 0, K4);
    maps(0, FRAME, 2 * K4, 3, 0, 2);
    maps(M2, FRAME, M2, 3, 0, 0);
    for (size_t i = 0; i < COUNT(maps_of); i++) maps(maps_of[i].address, maps_of[i].frame, maps_of[i].length, maps_of[i].attributes, maps_of[i].number, 0);
    for (size_t i = 0; i < COUNT(unmaps_of); i++) unmaps(unmaps_of[i].address, unmaps_of[i].length, unmaps_of[i].number, 0, 0);

    static const uint64_t odd[][2] = {{0, 2}, {0, 5}, {1, POOL + 8}, {1, LIMIT}, {2, 0}, {2, 3}, {2, 513}, {3, 4}, {3, TOP}, {4, MORE}, {5, 1}, {6, 0}, {6, K16}};
    for (size_t i = 0; i < COUNT(odd); i++) {
        oak_setup good = setup;
        uint64_t numbers[7];
        memcpy(numbers, &good, sizeof good);
        numbers[odd[i][0]] = odd[i][1];
        memcpy(&setup, numbers, sizeof setup);
        maps(TOP + 1, TOP + 1, 0, 16, 1, 0);
        unmaps(TOP + 1, 0, 1, 0, 0);
        setup = good;
    }
    for (int i = 0; i < 3; i++) {
        size_t *length = i == 0 ? &words_len : i == 1 ? &second_len : &list_len, good = *length;
        *length = good + 1;
        maps(0x8000, FRAME, K4, 3, 1, 0), unmaps(0, K4, 1, 0, 0);
        *length = good == 0 ? 512 : good - 1;
        maps(0x8000, FRAME, K4, 3, 1, 0), unmaps(0, K4, 1, 0, 0);
        *length = good;
    }
    unmaps(0, 4 * G1, 0, 3, 2);
}

/* ---- damage */

static void damage(void) {
    uint64_t *words = is.words + GUARD;
    fresh(3, 4, 0, K4);
    maps(0, FRAME, 2 * K4, 3, 0, 2);
    maps(M2, FRAME, M2, 3, 0, 0);
    words[1024 + 5] = 5;
    maps(3 * K4, FRAME, 2 * K4, 3, 0, 0);
    maps(6 * K4, FRAME, K4, 3, 0, 0);
    maps(5 * K4, FRAME, K4, 3, 8, 0);
    maps(0, FRAME, 6 * K4, 3, 8, 0);
    maps(0, FRAME + K4, 8 * M2, 3, 8, 0);
    maps(0, FRAME, M2, 3, 6, 0);
    unmaps(5 * K4, K4, 8, 0, 0);
    unmaps(0, 4 * G1, 8, 0, 0);
    unmaps(5 * K4, M2, 8, 0, 0);
    unmaps(0, 5 * K4, 0, 4, 0);
    unmaps(6 * K4, M2, 10, 0, 0);
    unmaps(6 * K4, M2 - 6 * K4, 0, 1, 0);

    /* root entries 0 and 1 name table 1 */
    fresh(3, 4, 0, K4);
    words[0] = words[1] = POOL + K4 + 3;
    setup.free = 2;
    maps(G1 - M2, FRAME, 2 * M2, 3, 8, 0);
    maps(G1 - K4, FRAME, 2 * K4, 3, 8, 0);
    maps(0, FRAME, 2 * G1, 3, 6, 0);
    unmaps(G1 - K4, 2 * K4, 8, 0, 0);
    unmaps(0, 2 * G1, 8, 0, 0);
    unmaps(0, G1, 0, 0, 0);
    maps(0, FRAME, M2, 3, 0, 0);
    unmaps(G1, G1, 0, 1, 1);
    unmaps(0, G1, 0, 0, 0);

    /* the free list: three tables would be places 6, 5 and 4 */
    static const uint32_t bad[] = {0, 8, UINT32_MAX, 1, 2};
    for (size_t i = 0; i < COUNT(bad); i++) {
        fresh(3, 8, 0, K4);
        is.list[GUARD + 4] = bad[i];
        maps(M2 - K4, FRAME, 2 * K4, 3, 8, 0);
        is.list[GUARD + 4] = 3, is.list[GUARD + 3] = bad[i];
        maps(M2 - K4, FRAME, 2 * K4, 3, 0, 3);
    }
    /* table 2 is on the path of the first page, which needs none */
    fresh(3, 8, 0, K4);
    maps(0, FRAME, K4, 3, 0, 2);
    is.list[GUARD + 4] = 2;
    maps(M2 - K4, FRAME, 2 * K4, 3, 8, 0);
    /* no room for what comes back */
    fresh(3, 8, 0, K4);
    maps(M2 - K4, FRAME, 2 * K4, 3, 0, 3);
    setup.free = 5;
    unmaps(0, 2 * M2, 8, 0, 0);
    unmaps(0, 2 * K4, 0, 0, 0);
    setup.free = 4;
    unmaps(0, 2 * M2, 0, 2, 3);
    /* an empty table is a hole and stays */
    fresh(3, 8, 0, K4);
    maps(0, FRAME, K4, 3, 0, 2);
    words[513] = POOL + 3 * K4 + 3;
    unmaps(0, G1, 0, 1, 1);
    unmaps(0, G1, 0, 0, 0);
}

/* ---- two regions, and the larger granule */

static void two_regions(void) {
    fresh(3, 2, 3, K4);
    maps(M2 - K4, FRAME, 2 * K4, 3, 0, 3);
    maps(0, MORE + 2 * K4, K4, 3, 11, 0);
    maps(0, MORE - 2 * K4, 3 * K4, 3, 11, 0);
    maps(0, MORE - 2 * K4, 2 * K4, 3, 0, 0);
    maps(0x8000, MORE + 3 * K4, K4, 3, 0, 0);
    maps(G1, FRAME, 2 * K4, 3, 7, 0);
    unmaps(0, 4 * G1, 0, 5, 3);

    fresh(3, 3, 2, K16);
    maps(0, FRAME, K4, 3, 2, 0);
    maps(0, FRAME, K16 + K4, 3, 2, 0);
    maps(0, FRAME, 4 * G1 + K16, 3, 2, 0);
    maps(K4, FRAME, K16, 3, 5, 0);
    maps(0, FRAME + K4, K16, 3, 5, 0);
    maps(SPACE_16 - K16, FRAME, 2 * K16, 3, 4, 0);
    maps(0, MORE + K16, K16, 3, 11, 0);
    maps(M32 - K16, FRAME + M32 - K16, M32 + 2 * K16, 3, 0, 3);
    maps(2 * M32 + 2 * K16, FRAME, 3 * K16, 9, 0, 0);
    maps((UINT64_C(1) << 36) - K16, FRAME, 2 * K16, 3, 7, 0);
    unmaps(K4, K16, 5, 0, 0);
    unmaps(0, K4, 2, 0, 0);
    unmaps(M32, K16, 10, 0, 0);
    unmaps(0, 4 * G1, 0, 6, 3);
    maps(0, 4 * G1, 4 * G1, 7, 0, 1);
    unmaps(M32, 4 * G1 - M32, 0, 127, 0);
    unmaps(0, 4 * G1, 0, 1, 1);
}

int main(void) {
    pieces();
    refusals();
    damage();
    two_regions();
    printf("%lu passed, %lu failed\n", passed, failed);
    return failed != 0;
}
