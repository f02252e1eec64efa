/* The calls on a pool, by numbers written down here.
 *
 * The three lent runs, the setup and the answer stand in one block with guard words between them. Before a call the test says what the
 * whole block has to be after it; after the call every part of the block is compared, so a word too many anywhere is a failure.
 * A call counts as six tests: its number, the words of both runs, the list, the setup and the answer.
 * The header is also C++ and freestanding C: g++ -xc++ -fsyntax-only and gcc -ffreestanding -fsyntax-only take it.
 * The last line is 'N passed, M failed'. */
#include <inttypes.h>
#include <stdbool.h>
#include <stdio.h>
#include <string.h>

#include "oakabut.h"

#define COUNT(a) (sizeof(a) / sizeof((a)[0]))
#define GUARD 8
#define MOST_TABLES 513 /* one more than a pool may have, of the smaller granule */
#define LIMIT (UINT64_C(1) << 48)
#define SPACE_3 (UINT64_C(1) << 39)
#define SPACE_16 (UINT64_C(1) << 47) /* with the larger granule */
#define OAK_64_GIB (UINT64_C(1) << 36)
#define MOST UINT64_MAX
#define POOL UINT64_C(0x40000000)
#define MORE UINT64_C(0x50000000) /* where a second region stands */
#define FRAME UINT64_C(0x80000000)

typedef struct {
    uint64_t words[GUARD + 512 * MOST_TABLES + GUARD];
    uint64_t second[GUARD + 512 * MOST_TABLES + GUARD];
    uint64_t setup[GUARD + 7 + GUARD];
    uint64_t answer[GUARD + 13 + GUARD];
    uint32_t list[GUARD + MOST_TABLES + GUARD];
} block;

static block is, want;                         /* what there is, and what has to be */
static oak_setup setup;                        /* the setup of the next call */
static size_t words_len, second_len, list_len; /* and the lengths */
static uint64_t granule = OAK_4_KIB;           /* the granule of the pools to come */
static unsigned long passed, failed;

/* ---- what has to be */

static void test(const char *call, const char *part, bool good) {
    if (good) {
        passed++;
        return;
    }
    failed++;
    printf("%s: %s wrong\n", call, part);
}

/* the call is to write this word, or this one of the second run, or this place */
static void writes(size_t i, uint64_t value) { want.words[GUARD + i] = value; }
static void writes_second(size_t i, uint64_t value) { want.second[GUARD + i] = value; }
static void writes_place(size_t i, uint32_t value) { want.list[GUARD + i] = value; }

/* somebody else has written this word, or this one of the second run, or this place */
static void damage(size_t i, uint64_t value) { is.words[GUARD + i] = want.words[GUARD + i] = value; }
static void damage_second(size_t i, uint64_t value) { is.second[GUARD + i] = want.second[GUARD + i] = value; }
static void damage_place(size_t i, uint32_t value) { is.list[GUARD + i] = want.list[GUARD + i] = value; }

static size_t entries(void) { return granule / 8; }

static void lengths_of_two(uint64_t tables, uint64_t second_tables) {
    words_len = entries() * tables;
    second_len = entries() * second_tables;
    list_len = tables + second_tables;
}

static void lengths_of(uint64_t tables) { lengths_of_two(tables, 0); }

/* the setup and the answer before a call, and the answer after it */
static void before(const void *answer, size_t bytes) {
    memset(is.answer, 0xA5, sizeof is.answer);
    memcpy(is.setup + GUARD, &setup, sizeof setup);
    memcpy(want.setup, is.setup, sizeof want.setup);
    memcpy(want.answer, is.answer, sizeof want.answer);
    memcpy(want.answer + GUARD, answer, bytes);
}

static void after(const char *call, uint64_t got, uint64_t number) {
    char what[160];
    snprintf(what, sizeof what, "%s, got %" PRIu64 ", want %" PRIu64, call, got, number);
    test(what, "the number is", got == number);
    test(what, "the words are", memcmp(is.words, want.words, sizeof is.words) == 0);
    test(what, "the second run is", memcmp(is.second, want.second, sizeof is.second) == 0);
    test(what, "the list is", memcmp(is.list, want.list, sizeof is.list) == 0);
    test(what, "the setup is", memcmp(is.setup, want.setup, sizeof is.setup) == 0);
    test(what, "the answer is", memcmp(is.answer, want.answer, sizeof is.answer) == 0);
    want = is;
}

static uint64_t *words(void) { return is.words + GUARD; }
static uint64_t *second(void) { return second_len == 0 ? OAK_NO_WORDS : is.second + GUARD; }
static uint32_t *list(void) { return is.list + GUARD; }
static const oak_setup *given(void) { return (const oak_setup *)(const void *)(is.setup + GUARD); }
static void *answer(void) { return is.answer + GUARD; }

/* ---- the calls; number 0 says that the call does what the other arguments say */

static void format_two(uint64_t levels, uint64_t base, uint64_t tables, uint64_t second_base, uint64_t second_tables, uint64_t number) {
    char what[160];
    oak_setup a = {0, 0, 0, 0, 0, 0, 0};
    if (number == 0) {
        uint64_t all = tables + second_tables;
        a = (oak_setup){levels, base, tables, all - 1, second_base, second_tables, granule};
        for (size_t i = 0; i < entries() * tables; i++) writes(i, 0);
        for (size_t i = 0; i < entries() * second_tables; i++) writes_second(i, 0);
        for (size_t i = 0; i < all; i++) writes_place(i, (uint32_t)(all - 1 - i));
    }
    before(&a, sizeof a);
    snprintf(what, sizeof what, "format %" PRIu64 " %#" PRIx64 " %" PRIu64 " %#" PRIx64 " %" PRIu64 " %" PRIu64, levels, base, tables,
             second_base, second_tables, granule);
    after(what,
          oak_format(levels, base, tables, second_base, second_tables, granule, words(), words_len, second(), second_len, list(), list_len,
                     answer()),
          number);
    if (number == 0) setup = a;
}

static void format_is(uint64_t levels, uint64_t base, uint64_t tables, uint64_t number) { format_two(levels, base, tables, 0, 0, number); }

/* an add of so many tables at an address; 0 says that it is made */
static void add_is(uint64_t base, uint64_t tables, uint64_t number) {
    char what[120];
    oak_setup a = setup;
    if (number == 0) {
        a.second_base = base;
        a.second_tables = tables;
        a.free += tables;
        for (size_t i = 0; i < entries() * tables; i++) writes_second(i, 0);
        for (size_t i = 0; i < tables; i++) writes_place(setup.free + i, (uint32_t)(setup.tables + tables - 1 - i));
    }
    before(&a, sizeof a);
    snprintf(what, sizeof what, "add %#" PRIx64 " %" PRIu64, base, tables);
    after(what, oak_add(given(), words(), words_len, second(), second_len, list(), list_len, base, tables, answer()), number);
    setup = a;
}

static void map_is(uint64_t address, uint64_t frame, uint64_t size, uint64_t attributes, uint64_t number, uint64_t taken) {
    char what[120];
    oak_mapped a = {setup, taken};
    a.setup.free -= taken;
    before(&a, sizeof a);
    snprintf(what, sizeof what, "map %#" PRIx64 " %#" PRIx64 " %#" PRIx64 " %" PRIu64, address, frame, size, attributes);
    after(what, oak_map(given(), words(), words_len, second(), second_len, list(), list_len, address, frame, size, attributes, answer()), number);
    setup = a.setup;
}

static void unmap_is(uint64_t address, uint64_t frame, uint64_t size, uint64_t attributes, uint64_t gives) {
    char what[120];
    oak_unmapped a = {setup, frame, size, attributes, gives, 0, 0};
    a.setup.free += gives;
    before(&a, sizeof a);
    snprintf(what, sizeof what, "unmap %#" PRIx64, address);
    after(what, oak_unmap(given(), words(), words_len, second(), second_len, list(), list_len, address, answer()), 0);
    setup = a.setup;
}

static void query_is(uint64_t address, uint64_t base, uint64_t frame, uint64_t size, uint64_t attributes) {
    char what[120];
    oak_found a = {base, frame, size, attributes, 0, 0};
    before(&a, sizeof a);
    snprintf(what, sizeof what, "query %#" PRIx64, address);
    after(what, oak_query(given(), words(), words_len, second(), second_len, list(), list_len, address, answer()), 0);
}

static void audit_is(uint64_t tables, uint64_t mappings, uint64_t number) {
    oak_audited a = {tables, mappings};
    before(&a, sizeof a);
    after("audit", oak_audit(given(), words(), words_len, second(), second_len, list(), list_len, answer()), number);
}

static void map_refused(uint64_t address, uint64_t frame, uint64_t size, uint64_t attributes, uint64_t number) {
    map_is(address, frame, size, attributes, number, 0);
}

static void unmap_carries(uint64_t address, uint64_t number, uint64_t hole_base, uint64_t hole_size) {
    char what[120];
    oak_unmapped a = {setup, 0, 0, 0, 0, hole_base, hole_size};
    before(&a, sizeof a);
    snprintf(what, sizeof what, "unmap %#" PRIx64, address);
    after(what, oak_unmap(given(), words(), words_len, second(), second_len, list(), list_len, address, answer()), number);
}

static void query_carries(uint64_t address, uint64_t number, uint64_t hole_base, uint64_t hole_size) {
    char what[120];
    oak_found a = {0, 0, 0, 0, hole_base, hole_size};
    before(&a, sizeof a);
    snprintf(what, sizeof what, "query %#" PRIx64, address);
    after(what, oak_query(given(), words(), words_len, second(), second_len, list(), list_len, address, answer()), number);
}

/* only 9 carries a hole */
static void unmap_refused(uint64_t address, uint64_t number) { unmap_carries(address, number, 0, 0); }
static void query_refused(uint64_t address, uint64_t number) { query_carries(address, number, 0, 0); }
static void unmap_hole(uint64_t address, uint64_t base, uint64_t size) { unmap_carries(address, 9, base, size); }
static void query_hole(uint64_t address, uint64_t base, uint64_t size) { query_carries(address, 9, base, size); }

static void audit_refused(uint64_t number) { audit_is(0, 0, number); }

/* ---- pools to begin with */

static void fresh(uint64_t levels, uint64_t base, uint64_t tables) {
    memset(&is, 0xA5, sizeof is);
    want = is;
    lengths_of(tables);
    format_is(levels, base, tables, 0);
}

/* the pool after case 4: tables 1 and 2, three mappings, table 3 free */
static void three_mappings(void) {
    fresh(3, POOL, 4);
    writes(0, 0x40001003);
    writes(512, 0x40002003);
    writes(1024, UINT64_C(0x00400000800007FF));
    map_is(0, FRAME, 4096, 3, 0, 2);
    writes(1025, 0x8000177F);
    map_is(0x1000, 0x80001000, 4096, 5, 0, 0);
    writes(513, UINT64_C(0x00400000802007FD));
    map_is(0x200000, 0x80200000, OAK_2_MIB, 3, 0, 0);
}

/* ---- the cases */

static void the_cases(void) {
    three_mappings();
    audit_is(3, 3, 0);
    map_refused(0x201000, FRAME, 4096, 3, 6);
    map_refused(0, FRAME, OAK_2_MIB, 3, 6);
    map_refused(0x40000000, FRAME, 4096, 3, 7);
    query_is(0x201234, 0x200000, 0x80200000, OAK_2_MIB, 3);
    unmap_refused(0x201000, 10);
    unmap_hole(0x3000, 0x3000, 4096);
    writes(1024, 0);
    unmap_is(0, FRAME, 4096, 3, 0);
    audit_is(3, 2, 0);
    writes(1025, 0);
    writes(512, 0);
    writes_place(1, 2);
    unmap_is(0x1000, 0x80001000, 4096, 5, 1);
    test("case 9", "the free count is", setup.free == 2);
    audit_is(2, 1, 0);
    writes(513, 0);
    writes(0, 0);
    writes_place(2, 1);
    unmap_is(0x200000, 0x80200000, OAK_2_MIB, 3, 1);
    test("case 10", "the free count is", setup.free == 3);
    audit_is(1, 0, 0);
    writes(511, 0x40001003);
    writes(512 + 511, 0x40002003);
    writes(1024 + 511, UINT64_C(0x00400000800007FF));
    map_is(UINT64_C(0x7FFFFFF000), FRAME, 4096, 3, 0, 2);
    test("case 11", "the free count is", setup.free == 1);
    map_refused(UINT64_C(0x8000000000), FRAME, 4096, 3, 4);
    audit_is(3, 1, 0);
}

static void more_cases(void) {
    fresh(3, POOL, 2);
    map_refused(0, FRAME, 4096, 3, 7);
    fresh(4, POOL, 4);
    writes(0, 0x40001003);
    writes(512, 0x40002003);
    writes(1024, 0x40003003);
    writes(1536, UINT64_C(0x00400000800004C3));
    map_is(0, FRAME, 4096, 11, 0, 3);
    query_is(0xFFF, 0, FRAME, 4096, 11);
    audit_is(4, 1, 0);
    map_refused(UINT64_C(1) << 39, FRAME, OAK_1_GIB, 3, 7);
    fresh(3, LIMIT - 512 * 4096, 512);
    map_refused(0x40000000, UINT64_C(0xFFFFC0000000), OAK_1_GIB, 7, 11);
    fresh(3, POOL, 512);
    writes(1, UINT64_C(0x0000FFFFC0000000) + 1 + 0x7FC);
    map_is(0x40000000, UINT64_C(0xFFFFC0000000), OAK_1_GIB, 7, 0, 0);
    query_is(0x7FFFFFFF, 0x40000000, UINT64_C(0xFFFFC0000000), OAK_1_GIB, 7);
    audit_is(1, 1, 0);
    writes(1, 0);
    unmap_is(0x40000000, UINT64_C(0xFFFFC0000000), OAK_1_GIB, 7, 0);
    fresh(3, 0, 1);
    audit_is(1, 0, 0);
    fresh(3, POOL, 4);
    damage(512 + 7, 5);
    writes(512 + 7, 0);
    writes(0, 0x40001003);
    writes(512, FRAME + 1 + 0x7FC);
    map_is(0, FRAME, OAK_2_MIB, 7, 0, 1);
}

/* ---- frames at the pool: refusal 11, half open */

static void never_the_pool(void) {
    static const uint64_t inside[][2] = {{POOL, 4096}, {POOL + 0x3000, 4096}, {POOL, OAK_2_MIB}, {POOL, OAK_1_GIB}};
    three_mappings();
    for (size_t i = 0; i < COUNT(inside); i++) {
        map_refused(0x3000 - 0x3000 % inside[i][1], inside[i][0], inside[i][1], 3, OAK_REFUSED_POOL);
        map_refused(1, inside[i][0], inside[i][1], 3, 5);
    }
    map_refused(0x3000, POOL + 1, 4096, 3, 5);
    map_refused(0x40000000, POOL, 4096, 3, 11);
    writes(1026, UINT64_C(0x00400000400047FF));
    map_is(0x2000, POOL + 0x4000, 4096, 3, 0, 0);
    writes(1027, UINT64_C(0x004000003FFFF7FF));
    map_is(0x3000, POOL - 4096, 4096, 3, 0, 0);
    writes(514, UINT64_C(0x004000003FE007FD));
    map_is(0x400000, POOL - OAK_2_MIB, OAK_2_MIB, 3, 0, 0);
    audit_is(3, 6, 0);
    /* a pool that has such a frame: the audit alone minds */
    damage(1028, UINT64_C(0x00400000400017FF));
    audit_refused(8);
    query_is(0x4ABC, 0x4000, POOL + 0x1000, 4096, 3);
    map_refused(0x4000, FRAME, 4096, 3, 6);
    writes(1028, 0);
    unmap_is(0x4000, POOL + 0x1000, 4096, 3, 0);
    audit_is(3, 6, 0);
    damage(7, POOL + 1 + 0x7FC);
    audit_refused(8);
    query_is(UINT64_C(0x1FFFFFFFF), UINT64_C(0x1C0000000), POOL, OAK_1_GIB, 7);
    writes(7, 0);
    unmap_is(UINT64_C(0x1C0000000), POOL, OAK_1_GIB, 7, 0);
    audit_is(3, 6, 0);
}

/* ---- the places of setup and answers: every number is another one, and is looked for where the struct has it */

static void layout(void) {
    static uint64_t w[512 * 7];
    static uint32_t l[7];
    oak_setup s;
    oak_mapped m;
    oak_unmapped u;
    oak_found f;
    oak_audited a;
    test("format", "the number is", oak_format(3, POOL, 7, 0, 0, OAK_4_KIB, w, 512 * 7, OAK_NO_WORDS, 0, l, 7, &s) == 0);
    test("format", "the answer is",
         s.levels == 3 && s.base == POOL && s.tables == 7 && s.free == 6 && s.second_base + s.second_tables == 0 && s.granule == 4096);
    test("map", "the number is", oak_map(&s, w, 512 * 7, OAK_NO_WORDS, 0, l, 7, 0x400000, 0x80200000, OAK_2_MIB, 5, &m) == 0);
    test("map", "the answer is",
         m.setup.levels == 3 && m.setup.base == POOL && m.setup.tables == 7 && m.setup.free == 5 && m.setup.granule == 4096 && m.taken == 1);
    test("query", "the number is", oak_query(&m.setup, w, 512 * 7, OAK_NO_WORDS, 0, l, 7, 0x412345, &f) == 0);
    test("query", "the answer is", f.base == 0x400000 && f.frame == 0x80200000 && f.size == OAK_2_MIB && f.attributes == 5);
    test("query", "no hole is", f.hole_base + f.hole_size == 0);
    test("query", "the refusal is", oak_query(&m.setup, w, 512 * 7, OAK_NO_WORDS, 0, l, 7, 0x612345, &f) == 9);
    test("query", "the hole is", f.hole_base == 0x600000 && f.hole_size == OAK_2_MIB && f.base + f.frame + f.size + f.attributes == 0);
    test("unmap", "the refusal is", oak_unmap(&m.setup, w, 512 * 7, OAK_NO_WORDS, 0, l, 7, 0x612000, &u) == 9);
    test("unmap", "the hole is", u.hole_base == 0x600000 && u.hole_size == OAK_2_MIB && u.frame + u.size + u.attributes + u.given == 0);
    test("audit", "the number is", oak_audit(&m.setup, w, 512 * 7, OAK_NO_WORDS, 0, l, 7, &a) == 0);
    test("audit", "the answer is", a.tables == 2 && a.mappings == 1);
    test("unmap", "the number is", oak_unmap(&m.setup, w, 512 * 7, OAK_NO_WORDS, 0, l, 7, 0x400000, &u) == 0);
    test("unmap", "the setup is",
         u.setup.levels == 3 && u.setup.base == POOL && u.setup.tables == 7 && u.setup.free == 6 && u.setup.granule == 4096);
    test("unmap", "the answer is", u.frame == 0x80200000 && u.size == OAK_2_MIB && u.attributes == 5 && u.given == 1 && u.hole_base + u.hole_size == 0);
    static uint64_t v[512 * 2];
    static uint32_t longer[9];
    memcpy(longer, l, sizeof l);
    test("add", "the number is", oak_add(&u.setup, w, 512 * 7, v, 512 * 2, longer, 9, MORE, 2, &s) == 0);
    test("add", "the answer is",
         s.levels == 3 && s.base == POOL && s.tables == 7 && s.free == 8 && s.second_base == MORE && s.second_tables == 2 && s.granule == 4096);
    test("map", "the number is", oak_map(&s, w, 512 * 7, v, 512 * 2, longer, 9, 0x400000, 0x80200000, OAK_2_MIB, 5, &m) == 0);
    test("map", "the setup is", m.setup.second_base == MORE && m.setup.second_tables == 2 && m.setup.free == 7 && m.taken == 1);
    test("unmap", "the number is", oak_unmap(&m.setup, w, 512 * 7, v, 512 * 2, longer, 9, 0x400000, &u) == 0);
    test("unmap", "the setup is", u.setup.second_base == MORE && u.setup.second_tables == 2 && u.setup.free == 8 && u.given == 1);
    s = (oak_setup){101, 102, 103, 104, 105, 106, 107};
    oak_setup back = {0, 0, 0, 0, 0, 0, 0};
    test("add", "the refusal is", oak_add(&s, w, 512 * 7, v, 512 * 2, longer, 9, MORE, 2, &back) == 1);
    test("add", "the setup handed back is", memcmp(&back, &s, sizeof s) == 0);
    test("map", "the refusal is", oak_map(&s, w, 512 * 7, OAK_NO_WORDS, 0, l, 7, 1, 2, 3, 4, &m) == 1);
    test("map", "the setup handed back is", memcmp(&m.setup, &s, sizeof s) == 0 && m.taken == 0);
    test("unmap", "the refusal is", oak_unmap(&s, w, 512 * 7, OAK_NO_WORDS, 0, l, 7, 1, &u) == 1);
    test("unmap", "the setup handed back is", memcmp(&u.setup, &s, sizeof s) == 0 && u.frame + u.size + u.attributes + u.given == 0);
}

/* ---- refusal 1, of all five */

static void all_refuse_1(void) {
    map_refused(MOST, MOST, MOST, MOST, 1);
    map_refused(0x5000, FRAME, 4096, 3, 1);
    unmap_refused(MOST, 1);
    unmap_refused(0, 1);
    query_refused(MOST, 1);
    query_refused(0, 1);
    audit_refused(1);
}

static void bad_setups(void) {
    static const oak_setup bad[] = {
        {0, POOL, 4, 1, 0, 0, 4096}, {2, POOL, 4, 1, 0, 0, 4096}, {5, POOL, 4, 1, 0, 0, 4096}, {MOST, POOL, 4, 1, 0, 0, 4096},
        {3 + (UINT64_C(1) << 32), POOL, 4, 1, 0, 0, 4096}, {3, POOL + 1, 4, 1, 0, 0, 4096}, {3, POOL + 2048, 4, 1, 0, 0, 4096},
        {3, LIMIT - 4 * 4096 + 4096, 4, 1, 0, 0, 4096}, {3, LIMIT, 4, 1, 0, 0, 4096}, {3, 0 - UINT64_C(4096), 4, 1, 0, 0, 4096},
        {3, MOST, 4, 1, 0, 0, 4096}, {3, POOL, 0, 1, 0, 0, 4096}, {3, POOL, 0, 0, 0, 0, 4096}, {3, POOL, 3, 1, 0, 0, 4096},
        {3, POOL, 5, 1, 0, 0, 4096}, {3, POOL, 513, 1, 0, 0, 4096}, {3, POOL, 1 + (UINT64_C(1) << 32), 1, 0, 0, 4096},
        {3, POOL, MOST, 1, 0, 0, 4096}, {3, POOL, 4, 4, 0, 0, 4096}, {3, POOL, 4, 5, 0, 0, 4096}, {3, POOL, 4, MOST, 0, 0, 4096},
        {3, POOL, 4, 1 + (UINT64_C(1) << 32), 0, 0, 4096}, {0, 0, 0, 0, 0, 0, 0}, {4, POOL, 4, 4, 0, 0, 4096},
        /* a second base without tables, tables without memory */
        {3, POOL, 4, 1, MORE, 0, 4096}, {3, POOL, 4, 1, 1, 0, 4096}, {3, POOL, 4, 1, MORE, 1, 4096}, {3, POOL, 4, 1, 0, 1, 4096},
        {3, POOL, 3, 1, MORE, 1, 4096}, {3, POOL, 4, 1, MORE, MOST, 4096}, {3, POOL, 4, 1, MORE, MOST - 3, 4096},
    };
    three_mappings();
    for (size_t i = 0; i < COUNT(bad); i++) {
        setup = bad[i];
        all_refuse_1();
        if (bad[i].free < 4) format_two(bad[i].levels, bad[i].base, bad[i].tables, bad[i].second_base, bad[i].second_tables, 1);
    }
    setup = (oak_setup){3, POOL, 513, 1, 0, 0, 4096};
    lengths_of(513);
    all_refuse_1();
    format_is(3, POOL, 513, 1);
}

/* also no length at all: the pointers are good ones then too */
static void bad_lengths(void) {
    static const size_t lengths[][2] = {
        {0, 0}, {0, 4}, {2048, 0}, {2047, 4}, {2049, 4}, {2048, 3}, {2048, 5}, {4, 4}, {512, 1}, {1536, 3}, {2560, 5}, {16384, 16},
    };
    three_mappings();
    for (size_t i = 0; i < COUNT(lengths); i++) {
        words_len = lengths[i][0];
        list_len = lengths[i][1];
        all_refuse_1();
        format_is(3, POOL, 4, 1);
        format_is(4, POOL, 4, 1);
    }
    lengths_of(4);
    second_len = 512; /* a second run without a second region */
    all_refuse_1();
    format_is(3, POOL, 4, 1);
    lengths_of(0);
    format_is(3, POOL, 0, 1);
    setup = (oak_setup){3, POOL, 0, 0, 0, 0, 4096};
    all_refuse_1();
}

/* ---- two regions */

static void fresh_two(uint64_t levels, uint64_t base, uint64_t tables, uint64_t second_base, uint64_t second_tables) {
    memset(&is, 0xA5, sizeof is);
    want = is;
    lengths_of_two(tables, second_tables);
    format_two(levels, base, tables, second_base, second_tables, 0);
}

/* two tables at POOL, three at MORE; the page at 0 takes table 1 of the first region and table 2, the first of the second */
static void one_of_each(void) {
    fresh_two(3, POOL, 2, MORE, 3);
    writes(0, 0x40001003);
    writes(512, 0x50000003);
    writes_second(0, UINT64_C(0x00400000800007FF));
    map_is(0, FRAME, 4096, 3, 0, 2);
}

static void two_regions(void) {
    one_of_each();
    writes(1, 0x50001003);
    writes_second(512, 0x50002003);
    writes_second(1024, UINT64_C(0x00400000800007FF));
    map_is(0x40000000, FRAME, 4096, 3, 0, 2);
    audit_is(5, 2, 0);
    map_refused(0x80000000, FRAME, 4096, 3, 7);
    query_is(0xFFF, 0, FRAME, 4096, 3);
    query_is(0x40000ABC, 0x40000000, FRAME, 4096, 3);
    query_hole(0x1000, 0x1000, 4096);
    /* they come back, and are taken again the other way round */
    writes(0, 0);
    writes(512, 0);
    writes_second(0, 0);
    writes_place(0, 2);
    writes_place(1, 1);
    unmap_is(0, FRAME, 4096, 3, 2);
    writes(1, 0);
    writes_second(512, 0);
    writes_second(1024, 0);
    writes_place(2, 4);
    writes_place(3, 3);
    unmap_is(0x40000000, FRAME, 4096, 3, 2);
    audit_is(1, 0, 0);
    writes(511, 0x50001003);
    writes_second(512 + 511, 0x50002003);
    writes_second(1024 + 511, UINT64_C(0x00400000800007FF));
    map_is(SPACE_3 - 4096, FRAME, 4096, 3, 0, 2);
    audit_is(3, 1, 0);
    map_refused(0, MORE, 4096, 3, 11);
    map_refused(0, MORE + 0x2000, 4096, 3, 11);
    map_refused(0, POOL, OAK_1_GIB, 3, 11);
    writes(0, 0x40001003);
    writes(512, UINT64_C(0x004000004FE007FD));
    map_is(0, MORE - OAK_2_MIB, OAK_2_MIB, 3, 0, 1);
    damage_second(1024, UINT64_C(0x00400000500017FF));
    audit_refused(8);
}

/* words that name the other region's end, and what is past either */
static void ends_of_regions(void) {
    static const uint64_t ends[] = {0x40002003, 0x3FFFF003, 0x40000003, 0x50003003, 0x4FFFF003};
    for (size_t i = 0; i < COUNT(ends); i++) {
        one_of_each();
        damage(513, ends[i]);
        query_refused(0x200000, 8);
        map_refused(0x200000, FRAME, 4096, 3, 8);
        unmap_refused(0x200000, 8);
        audit_refused(8);
    }
    one_of_each();
    damage(513, 0x50002003); /* the last table, which is free */
    query_hole(0x200000, 0x200000, 4096);
    audit_refused(8);
}

/* regions that touch either way round, and that overlap either way round */
static void places_of_regions(void) {
    static const uint64_t fine[] = {POOL + 0x2000, POOL - 0x3000, 0, LIMIT - 0x3000};
    static const uint64_t wrong[] = {POOL + 0x1000, POOL - 0x2000, POOL, POOL - 0x1000, LIMIT - 0x2000, LIMIT, MORE + 1, 0 - UINT64_C(4096), MOST};
    for (size_t i = 0; i < COUNT(fine); i++) fresh_two(3, POOL, 2, fine[i], 3);
    one_of_each();
    for (size_t i = 0; i < COUNT(wrong); i++) {
        format_two(3, POOL, 2, wrong[i], 3, 1);
        setup = (oak_setup){3, POOL, 2, 2, wrong[i], 3, 4096};
        all_refuse_1();
    }
    setup = (oak_setup){3, POOL, 2, 2, MORE, 3, 4096};
    for (second_len = 1535; second_len <= 1537; second_len += 2) {
        all_refuse_1();
        format_two(3, POOL, 2, MORE, 3, 1);
    }
    lengths_of_two(2, 3);
    for (list_len = 2; list_len <= 6; list_len += list_len == 4 ? 2 : 1) {
        all_refuse_1();
        format_two(3, POOL, 2, MORE, 3, 1);
    }
    lengths_of_two(3, 2);
    all_refuse_1();
    lengths_of_two(2, 3);
    audit_is(3, 1, 0);
    setup.free = 5;
    all_refuse_1();
    fresh_two(4, POOL, 1, MORE, 511);
    audit_is(1, 0, 0);
    fresh_two(4, POOL, 511, MORE, 1);
    lengths_of_two(512, 1);
    format_two(4, POOL, 512, MORE, 1, 1);
    lengths_of_two(1, 512);
    format_two(4, POOL, 1, MORE, 512, 1);
}

/* ---- a region that is added */

/* the pool of case 4 with memory for two tables more */
static void one_short(void) {
    three_mappings();
    lengths_of_two(4, 2);
}

static void add_cases(void) {
    three_mappings();
    map_refused(0x40000000, FRAME, 4096, 3, 7);
    lengths_of_two(4, 2);
    add_is(MORE, 2, 0);
    test("add", "the free count is", setup.free == 3 && list()[0] == 3 && list()[1] == 5 && list()[2] == 4 && list()[3] == 0);
    audit_is(3, 3, 0);
    writes(1, 0x50000003);
    writes_second(0, 0x50001003);
    writes_second(512, UINT64_C(0x00400000800007FF));
    map_is(0x40000000, FRAME, 4096, 3, 0, 2);
    audit_is(5, 4, 0);
    query_is(0x40000123, 0x40000000, FRAME, 4096, 3);
    add_is(MORE + OAK_1_GIB, 2, 1);
    writes(1, 0);
    writes_second(0, 0);
    writes_second(512, 0);
    writes_place(1, 5);
    writes_place(2, 4);
    unmap_is(0x40000000, FRAME, 4096, 3, 2);
    audit_is(3, 3, 0);
    /* touching, at both sides, at 0 and at 2^48 */
    one_short();
    add_is(POOL + 0x4000, 2, 0);
    one_short();
    add_is(POOL - 0x2000, 2, 0);
    one_short();
    add_is(0, 2, 0);
    one_short();
    add_is(LIMIT - 0x2000, 2, 0);
    audit_is(3, 3, 0);
    fresh(3, POOL, 4);
    lengths_of_two(4, 508);
    add_is(MORE, 508, 0);
    audit_is(1, 0, 0);
    fresh(3, POOL, 4);
    lengths_of_two(4, 509);
    add_is(MORE, 509, 1);
}

static void add_refuses_1(void) {
    static const uint64_t numbers[][2] = {
        {MORE, 0}, {0, 0}, {POOL, 2}, {POOL + 0x3000, 2}, {POOL - 0x1000, 2}, {MORE + 1, 2}, {MORE + 2048, 2}, {LIMIT - 0x1000, 2},
        {LIMIT, 2}, {0 - UINT64_C(4096), 2}, {MOST, 2}, {MORE, 1}, {MORE, 3}, {MORE, 509}, {MORE, MOST}, {MORE, MOST - 3},
    };
    static const size_t lengths[][3] = {
        {2048, 1023, 6}, {2048, 1025, 6}, {2048, 0, 6}, {2048, 1024, 5}, {2048, 1024, 7}, {2048, 1024, 4}, {2047, 1024, 6}, {2049, 1024, 6},
        {0, 0, 0}, {1024, 2048, 6},
    };
    static const oak_setup bad[] = {
        {2, POOL, 4, 1, 0, 0, 4096}, {3, POOL + 1, 4, 1, 0, 0, 4096}, {3, MORE, 4, 1, 0, 0, 4096}, {3, MORE + 0x1000, 4, 1, 0, 0, 4096},
        {3, POOL, 3, 1, 0, 0, 4096}, {3, POOL, 4, 4, 0, 0, 4096}, {3, POOL, 4, 5, 0, 0, 4096}, {3, POOL, 4, MOST, 0, 0, 4096},
        {3, POOL, 4, 1, MORE, 0, 4096}, {3, POOL, 4, 1, MORE, 2, 4096}, {3, POOL, 4, 1, MORE + OAK_1_GIB, 2, 4096}, {0, 0, 0, 0, 0, 0, 0},
    };
    one_short();
    for (size_t i = 0; i < COUNT(numbers); i++) add_is(numbers[i][0], numbers[i][1], 1);
    for (size_t i = 0; i < COUNT(lengths); i++) {
        words_len = lengths[i][0], second_len = lengths[i][1], list_len = lengths[i][2];
        add_is(MORE, 2, 1);
    }
    lengths_of_two(4, 2);
    for (size_t i = 0; i < COUNT(bad); i++) {
        setup = bad[i];
        add_is(MORE, 2, 1);
    }
    fresh_two(3, POOL, 4, MORE, 2);
    add_is(MORE + OAK_1_GIB, 2, 1);
}

static void add_refuses_8(size_t word, uint64_t value) {
    one_short();
    damage(word, value);
    add_is(MORE, 2, 8);
}

static void add_takes(size_t word, uint64_t value) {
    one_short();
    damage(word, value);
    add_is(MORE, 2, 0);
}

static void add_damaged(void) {
    add_refuses_8(1026, 5);
    add_refuses_8(2047 - 1024, 5);
    add_refuses_8(511, MOST);
    add_refuses_8(514, 0x50000003); /* a table of the region to come */
    add_refuses_8(514, 0x40004003);
    add_refuses_8(1, 0x40001003);   /* table 1 for two regions */
    add_refuses_8(514, 0x40001003); /* which names itself */
    add_takes(514, 0x40003003);     /* an empty table */
    add_takes(1536, 5);             /* a free table that is not zero */
    add_takes(1026, UINT64_C(0x00400000400007FF)); /* a frame in the first region */
    audit_refused(8);
    one_short();
    setup.free = 3;
    damage_place(0, UINT32_MAX); /* a free list of nonsense */
    damage_place(2, 0);
    add_is(MORE, 2, 0);
    add_refuses_8(1027, 5);
    damage(1028, UINT64_C(0x00400000500007FF)); /* 8 before 11 */
    add_is(MORE, 2, 8);
    damage(1027, 0);
    add_is(MORE + 1, 2, 1); /* 1 before 11 */
    add_is(MORE, 2, 11);
    add_is(MORE - 0x1000, 2, 11);
    add_is(MORE - 0x2000, 2, 0);
    one_short();
    damage(514, UINT64_C(0x00400000500007FD)); /* 2 MiB at MORE */
    add_is(MORE + 0x1FF000, 2, 11);
    add_is(MORE + 0x7000, 2, 11);
    add_is(MORE + 0x200000, 2, 0);
    one_short();
    damage(7, UINT64_C(0x00400000C00007FD)); /* 1 GiB at 0xC0000000 */
    add_is(0xC0000000 - 0x1000, 2, 11);
    add_is(0xFFFFE000, 2, 11);
    add_is(0x80200000, 2, 11); /* the frame of case 4 */
    add_is(UINT64_C(0x100000000), 2, 0);
    audit_is(3, 4, 0);
}

/* ---- the refusals of map, and which of two is given */

static void map_refusals(void) {
    static const uint64_t odd[] = {0, 1, 4095, 4097, 8192, 0x1FFFFF, 0x400000, 0x80000000, UINT64_C(0x8000000000), LIMIT, MOST};
    three_mappings();
    for (size_t i = 0; i < COUNT(odd); i++) {
        map_refused(0x5000, FRAME, odd[i], 3, 2);
        map_refused(MOST, MOST, odd[i], MOST, 2);
    }
    map_refused(0x5000, FRAME, 4096, 16, 3);
    map_refused(MOST, MOST, 4096, MOST, 3);
    map_refused(SPACE_3, FRAME, 4096, 15, 4);
    map_refused(SPACE_3 - 4096, FRAME, OAK_2_MIB, 3, 4);
    map_refused(SPACE_3 - 4095, FRAME, 4096, 3, 4);
    map_refused(SPACE_3 + 0x200000, FRAME, OAK_2_MIB, 3, 4);
    map_refused(0 - UINT64_C(4096), FRAME, 4096, 3, 4);
    map_refused(MOST, FRAME, OAK_1_GIB, 3, 4);
    map_refused(0x5000, LIMIT, 4096, 3, 4);
    map_refused(0x5001, LIMIT - 4095, 4096, 3, 4);
    map_refused(0x5000, 0 - UINT64_C(4096), 4096, 3, 4);
    map_refused(0x40000000, LIMIT - OAK_2_MIB, OAK_1_GIB, 3, 4);
    map_refused(0x5800, FRAME, 4096, 3, 5);
    map_refused(0x5000, FRAME + 1, 4096, 3, 5);
    map_refused(0x1000, FRAME, OAK_2_MIB, 3, 5);
    map_refused(0x400000, FRAME + 0x1000, OAK_2_MIB, 3, 5);
    map_refused(0x200000, FRAME, OAK_1_GIB, 3, 5);
    map_refused(0x201800, FRAME, 4096, 3, 5);
    map_refused(0, FRAME, 4096, 3, 6);
    map_refused(0, FRAME, OAK_1_GIB, 3, 6);
    map_refused(0x200000, 0x80200000, OAK_2_MIB, 3, 6);
    map_refused(0x3FF000, FRAME, 4096, 3, 6);
    map_refused(0x40000000, FRAME, 4096, 3, 7);
    setup.free = 0;
    map_refused(0x400000, FRAME, 4096, 3, 7);
    map_refused(0x201000, FRAME, 4096, 3, 6);
}

static void map_damaged(void) {
    static const uint32_t out[] = {0, 4, 5, 64, UINT32_MAX};
    fresh(3, POOL, 4);
    for (size_t i = 0; i < COUNT(out); i++) {
        damage_place(2, out[i]);
        map_refused(0, FRAME, 4096, 3, 8);
        damage_place(2, 1);
        damage_place(1, out[i]);
        map_refused(0, FRAME, 4096, 3, 8);
    }
    damage_place(1, 1);
    map_refused(0, FRAME, 4096, 3, 8);
    setup.free = 1;
    map_refused(0, FRAME, 4096, 3, 7);
    three_mappings();
    damage_place(0, 1);
    map_refused(0x400000, FRAME, 4096, 3, 8);
    map_refused(0x40000000, FRAME, 4096, 3, 7);
}

/* ---- damaged words, which every walk meets at address 0 */

static void walk_damaged(size_t word, uint64_t value) {
    three_mappings();
    damage(word, value);
    map_refused(0, FRAME, 4096, 3, 8);
    setup.free = 0;
    map_refused(0, FRAME, 4096, 3, 8);
    setup.free = 1;
    map_refused(1, FRAME, 4096, 3, 5);
    unmap_refused(1, 5);
    unmap_refused(0, 8);
    query_refused(0, 8);
    query_refused(0xABC, 8);
    audit_refused(8);
}

static void damaged_words(void) {
    static const uint64_t words_of_no_kind[] = {1, 2, 3, 0x40000003, 0x40004003, 0x40001001, 0x40001007, 0x3FFFF003, 0x40001803, MOST};
    for (size_t i = 0; i < COUNT(words_of_no_kind); i++) {
        walk_damaged(0, words_of_no_kind[i]);
        walk_damaged(512, words_of_no_kind[i]);
        walk_damaged(1024, words_of_no_kind[i]);
    }
    walk_damaged(512, 0x40001003);
    walk_damaged(1024, 0x40003003);
    walk_damaged(1024, UINT64_C(0x00400000802007FD));
    walk_damaged(512, UINT64_C(0x00400000800007FF));
    walk_damaged(0, UINT64_C(0x00400000802007FD));
}

/* ---- the refusals of unmap and query */

static void unmap_refusals(void) {
    three_mappings();
    unmap_refused(SPACE_3, 4);
    unmap_refused(SPACE_3 + 1, 4);
    unmap_refused(LIMIT, 4);
    unmap_refused(MOST, 4);
    unmap_refused(1, 5);
    unmap_refused(0x800, 5);
    unmap_refused(SPACE_3 - 1, 5);
    unmap_refused(0x201001, 5);
    unmap_hole(0x2000, 0x2000, 4096);
    unmap_hole(0x400000, 0x400000, OAK_2_MIB);
    unmap_hole(0x5FF000, 0x400000, OAK_2_MIB);
    unmap_hole(SPACE_3 - 4096, SPACE_3 - OAK_1_GIB, OAK_1_GIB);
    unmap_refused(0x3FF000, 10);
    writes(513, 0);
    unmap_is(0x200000, 0x80200000, OAK_2_MIB, 3, 0);
    writes(1024, 0);
    unmap_is(0, FRAME, 4096, 3, 0);
    setup.free = 2;
    unmap_refused(0x1000, 8);
    setup.free = 3;
    unmap_refused(0x1000, 8);
    setup.free = 1;
    writes(1025, 0);
    writes(512, 0);
    writes(0, 0);
    writes_place(1, 2);
    writes_place(2, 1);
    unmap_is(0x1000, 0x80001000, 4096, 5, 2);
    audit_is(1, 0, 0);
}

static void query_refusals(void) {
    three_mappings();
    query_refused(SPACE_3, 4);
    query_refused(LIMIT, 4);
    query_refused(MOST, 4);
    query_hole(0x2000, 0x2000, 4096);
    query_hole(0x2FFF, 0x2000, 4096);
    query_hole(0x400000, 0x400000, OAK_2_MIB);
    query_hole(SPACE_3 - 1, SPACE_3 - OAK_1_GIB, OAK_1_GIB);
    query_is(0, 0, FRAME, 4096, 3);
    query_is(0x1FFF, 0x1000, 0x80001000, 4096, 5);
    query_is(0x3FFFFF, 0x200000, 0x80200000, OAK_2_MIB, 3);
    fresh(4, POOL, 4);
    query_hole(SPACE_3, SPACE_3, SPACE_3);
    query_hole(LIMIT - 1, LIMIT - SPACE_3, SPACE_3);
    query_refused(LIMIT, 4);
    unmap_hole(LIMIT - 4096, LIMIT - SPACE_3, SPACE_3);
    unmap_refused(LIMIT, 4);
    map_refused(LIMIT, FRAME, OAK_1_GIB, 3, 4);
}

/* ---- holes: as large as the walk saw them, and larger again once a table is pruned */

static void holes(void) {
    fresh(3, POOL, 4);
    query_hole(0, 0, OAK_1_GIB);
    unmap_hole(0, 0, OAK_1_GIB);
    query_hole(0x7FFFFFFF, 0x40000000, OAK_1_GIB);
    three_mappings();
    query_hole(0x400000, 0x400000, OAK_2_MIB);
    query_hole(0x3000, 0x3000, 4096);
    query_hole(0x1FFFFF, 0x1FF000, 4096);
    query_hole(0x40000000, 0x40000000, OAK_1_GIB);
    writes(1024, 0);
    unmap_is(0, FRAME, 4096, 3, 0);
    query_hole(0, 0, 4096);
    writes(1025, 0);
    writes(512, 0);
    writes_place(1, 2);
    unmap_is(0x1000, 0x80001000, 4096, 5, 1);
    query_hole(0, 0, OAK_2_MIB);
    unmap_hole(0x1000, 0, OAK_2_MIB);
    writes(513, 0);
    writes(0, 0);
    writes_place(2, 1);
    unmap_is(0x200000, 0x80200000, OAK_2_MIB, 3, 1);
    query_hole(0x200000, 0, OAK_1_GIB);
}

/* ---- each rule of the audit, broken alone where it can be */

static void audit_refusals(void) {
    three_mappings();
    damage(1, 0x40001003); /* table 1 for two regions */
    audit_refused(8);
    three_mappings();
    damage(512, 0); /* table 2 neither free nor reached */
    audit_refused(8);
    three_mappings();
    damage(1024, 0);
    damage(1025, 0); /* table 2 is empty */
    audit_refused(8);
    three_mappings();
    setup.free = 0; /* table 3 neither free nor reached */
    audit_refused(8);
    three_mappings();
    damage(1536 + 511, 1); /* the free table is not zero */
    audit_refused(8);
    three_mappings();
    damage_place(0, 2); /* a reached table is free */
    audit_refused(8);
    damage_place(0, 0); /* the root is free */
    audit_refused(8);
    damage_place(0, 4); /* a free number out of range */
    audit_refused(8);
    damage_place(0, 3);
    damage_place(1, UINT32_MAX); /* past the free ones: any number may stand there */
    audit_is(3, 3, 0);
    setup.free = 2;
    damage_place(1, 3); /* table 3 is free twice */
    audit_refused(8);
    damage_place(1, 2);
    audit_refused(8);
    fresh(3, POOL, 4);
    damage_place(1, 3);
    audit_refused(8);
    damage_place(1, 2);
    audit_is(1, 0, 0);
    setup.levels = 4;
    audit_is(1, 0, 0);
}

/* ---- the granule of 16 KiB: tables of 2048 entries, three levels, frames of 16 KiB and 32 MiB */

/* two pages and 32 MiB: tables 1 and 2, three mappings, table 3 free */
static void sixteen_mappings(void) {
    fresh(3, POOL, 4);
    writes(0, 0x40004003);
    writes(2048, 0x40008003);
    writes(4096, UINT64_C(0x00400000800007FF));
    map_is(0, FRAME, OAK_16_KIB, 3, 0, 2);
    writes(4097, 0x8000477F);
    map_is(0x4000, 0x80004000, OAK_16_KIB, 5, 0, 0);
    writes(2049, UINT64_C(0x00400000820007FD));
    map_is(0x2000000, 0x82000000, OAK_32_MIB, 3, 0, 0);
}

static void sixteen_cases(void) {
    sixteen_mappings();
    audit_is(3, 3, 0);
    map_refused(0x2004000, FRAME, OAK_16_KIB, 3, 6);
    map_refused(0, FRAME, OAK_32_MIB, 3, 6);
    map_refused(OAK_64_GIB, FRAME, OAK_16_KIB, 3, 7);
    query_is(0x2012345, 0x2000000, 0x82000000, OAK_32_MIB, 3);
    query_is(0x7FFF, 0x4000, 0x80004000, OAK_16_KIB, 5);
    unmap_refused(0x2004000, 10);
    unmap_hole(0xC000, 0xC000, OAK_16_KIB);
    query_hole(0xBFFF, 0x8000, OAK_16_KIB);
    query_hole(0x5FFFFFF, 0x4000000, OAK_32_MIB);
    query_hole(OAK_64_GIB + 5, OAK_64_GIB, OAK_64_GIB);
    writes(4096, 0);
    unmap_is(0, FRAME, OAK_16_KIB, 3, 0);
    writes(4097, 0);
    writes(2048, 0);
    writes_place(1, 2);
    unmap_is(0x4000, 0x80004000, OAK_16_KIB, 5, 1);
    audit_is(2, 1, 0);
    query_hole(0x4000, 0, OAK_32_MIB);
    writes(2049, 0);
    writes(0, 0);
    writes_place(2, 1);
    unmap_is(0x2000000, 0x82000000, OAK_32_MIB, 3, 1);
    audit_is(1, 0, 0);
    unmap_hole(0x2004000, 0, OAK_64_GIB);
    writes(2047, 0x40004003);
    writes(2048 + 2047, 0x40008003);
    writes(4096 + 2047, UINT64_C(0x0000FFFFFFFFC7FF));
    map_is(SPACE_16 - OAK_16_KIB, LIMIT - OAK_16_KIB, OAK_16_KIB, 7, 0, 2);
    query_is(SPACE_16 - 1, SPACE_16 - OAK_16_KIB, LIMIT - OAK_16_KIB, OAK_16_KIB, 7);
    query_hole(SPACE_16 - OAK_16_KIB - 1, SPACE_16 - 2 * OAK_16_KIB, OAK_16_KIB);
    query_hole(SPACE_16 - OAK_64_GIB - 1, SPACE_16 - 2 * OAK_64_GIB, OAK_64_GIB);
    query_refused(SPACE_16, 4);
    unmap_refused(SPACE_16, 4);
    map_refused(SPACE_16, FRAME, OAK_16_KIB, 3, 4);
    audit_is(3, 1, 0);
    /* bits 46:36, 35:25 and 24:14 */
    fresh(3, POOL, 4);
    writes(5, 0x40004003);
    writes(2048 + 7, 0x40008003);
    writes(4096 + 9, UINT64_C(0x00400000800004C3));
    map_is((UINT64_C(5) << 36) + (7 << 25) + (9 << 14), FRAME, OAK_16_KIB, 11, 0, 2);
    writes(6, 0x4000C003);
    writes(6144 + 2046, FRAME + 1 + 0x7FC);
    map_is((UINT64_C(6) << 36) + (UINT64_C(2046) << 25), FRAME, OAK_32_MIB, 7, 0, 1);
    audit_is(4, 2, 0);
    fresh(3, POOL, 2);
    map_refused(0, FRAME, OAK_16_KIB, 3, 7);
    fresh(3, 0, 1);
    map_refused(0, FRAME, OAK_32_MIB, 3, 7);
}

/* refusals 2 to 5 and 11 read the granule's own sizes */
static void sixteen_refusals(void) {
    static const uint64_t odd[] = {OAK_4_KIB, OAK_2_MIB, OAK_1_GIB, OAK_64_GIB, 0, 1, 8192, 16383, 16385, 0x10000, 0x1000000, SPACE_16, MOST};
    sixteen_mappings();
    for (size_t i = 0; i < COUNT(odd); i++) {
        map_refused(0x8000, FRAME, odd[i], 3, 2);
        map_refused(MOST, MOST, odd[i], MOST, 2);
    }
    map_refused(MOST, MOST, OAK_16_KIB, 16, 3);
    map_refused(SPACE_16 - OAK_16_KIB, FRAME, OAK_32_MIB, 3, 4);
    map_refused(SPACE_16 - OAK_16_KIB + 1, FRAME, OAK_16_KIB, 3, 4);
    map_refused(0 - OAK_16_KIB, FRAME, OAK_16_KIB, 3, 4);
    map_refused(0x8000, LIMIT - OAK_4_KIB, OAK_16_KIB, 3, 4);
    map_refused(0x4000000, LIMIT - OAK_16_KIB, OAK_32_MIB, 3, 4);
    map_refused(0x9000, FRAME, OAK_16_KIB, 3, 5);
    map_refused(0x8000, FRAME + 0x1000, OAK_16_KIB, 3, 5);
    map_refused(0x8000, FRAME + 0x2000, OAK_16_KIB, 3, 5);
    map_refused(0x4000000 + OAK_2_MIB, FRAME, OAK_32_MIB, 3, 5);
    map_refused(0x4000000, FRAME + 0x1000000, OAK_32_MIB, 3, 5);
    unmap_refused(0x1000, 5);
    unmap_refused(0x2000, 5);
    unmap_refused(0x2001000, 5);
    unmap_refused(SPACE_16 - OAK_4_KIB, 5);
    map_refused(0x8000, POOL, OAK_16_KIB, 3, 11);
    map_refused(0x8000, POOL + 0xC000, OAK_16_KIB, 3, 11);
    map_refused(0x4000000, POOL, OAK_32_MIB, 3, 11);
    map_refused(0, POOL, OAK_32_MIB, 3, 11);
    writes(4098, POOL + 0x10000 + 3 + 0x7FC);
    map_is(0x8000, POOL + 0x10000, OAK_16_KIB, 7, 0, 0);
    writes(4099, POOL - 0x4000 + 3 + 0x7FC);
    map_is(0xC000, POOL - 0x4000, OAK_16_KIB, 7, 0, 0);
    writes(2050, POOL - OAK_32_MIB + 1 + 0x7FC);
    map_is(0x4000000, POOL - OAK_32_MIB, OAK_32_MIB, 7, 0, 0);
    audit_is(3, 6, 0);
    damage(4100, POOL + 0xC000 + 3 + 0x7FC); /* a frame in the pool */
    audit_refused(8);
    query_is(0x10000, 0x10000, POOL + 0xC000, OAK_16_KIB, 7);
    writes(4100, 0);
    unmap_is(0x10000, POOL + 0xC000, OAK_16_KIB, 7, 0);
    damage(2051, POOL + 1 + 0x7FC);
    audit_refused(8);
    writes(2051, 0);
    unmap_is(0x6000000, POOL, OAK_32_MIB, 7, 0);
    audit_is(3, 6, 0);
    setup.free = 0;
    map_refused(0x8000000, FRAME, OAK_16_KIB, 3, 7);
}

/* words that say nothing: a frame in the root, words with bit 12 or 13, a word of the wrong level, a table that names itself */
static void sixteen_damaged(void) {
    static const struct {
        size_t at;
        uint64_t word;
    } damages[] = {
        {0, 1 + 0x7FC}, {0, FRAME + 1 + 0x7FC}, {0, OAK_64_GIB + 1 + 0x7FC}, {0, 3 + 0x7FC}, {0, 0x40004003 + 0x1000}, {0, 0x40004003 + 0x2000},
        {0, 0x40001003}, {0, 0x40000003}, {0, 0x40010003}, {0, 0x3FFFC003}, {2048, 0x40005003}, {2048, 0x40010003}, {2048, 0x40004003},
        {2048, FRAME + 3 + 0x7FC}, {2048, FRAME + OAK_2_MIB + 1 + 0x7FC}, {2048, FRAME + OAK_16_KIB + 1 + 0x7FC}, {4096, 0x4000C003},
        {4096, FRAME + 1 + 0x7FC}, {4096, FRAME + 0x1000 + 3 + 0x7FC}, {4096, FRAME + 0x2000 + 3 + 0x7FC}, {4096, LIMIT + 3 + 0x7FC}, {4096, MOST},
    };
    for (size_t i = 0; i < COUNT(damages); i++) {
        sixteen_mappings();
        damage(damages[i].at, damages[i].word);
        map_refused(0, FRAME, OAK_16_KIB, 3, 8);
        unmap_refused(0, 8);
        query_refused(0x3FFF, 8);
        audit_refused(8);
        lengths_of_two(4, 2);
        add_is(MORE, 2, 8);
    }
    /* the last word of a table keeps it */
    sixteen_mappings();
    damage(4096 + 2047, FRAME + 3 + 0x7FC);
    writes(4097, 0);
    unmap_is(0x4000, 0x80004000, OAK_16_KIB, 5, 0);
    writes(4096, 0);
    unmap_is(0, FRAME, OAK_16_KIB, 3, 0);
    audit_is(3, 2, 0);
    sixteen_mappings();
    damage(6144 + 2047, 1); /* the free table is not zero */
    audit_refused(8);
    writes(6144 + 2047, 0); /* map fills it */
    writes(2050, 0x4000C003);
    writes(6144, FRAME + 3 + 0x7FC);
    map_is(0x4000000, FRAME, OAK_16_KIB, 7, 0, 1);
    audit_is(4, 4, 0);
}

/* refusal 1: the granule's number, four levels, a base that is aligned to 4096 alone, and the lengths of the other granule */
static void sixteen_setups(void) {
    static const uint64_t numbers[] = {0, 1, 12, 14, 512, 4095, 4097, 8192, 16383, 16385, 32768, 65536, 16384 + (UINT64_C(1) << 32), MOST};
    static const oak_setup bad[] = {
        {4, POOL, 4, 1, 0, 0, 16384}, {2, POOL, 4, 1, 0, 0, 16384}, {5, POOL, 4, 1, 0, 0, 16384}, {3, POOL + 0x1000, 4, 1, 0, 0, 16384},
        {3, POOL + 0x2000, 4, 1, 0, 0, 16384}, {3, LIMIT - 0xC000, 4, 1, 0, 0, 16384}, {3, LIMIT - 0x10000 + 0x1000, 4, 1, 0, 0, 16384},
        {3, 0 - UINT64_C(16384), 4, 1, 0, 0, 16384}, {3, POOL, 4, 4, 0, 0, 16384}, {3, POOL, 3, 1, 0, 0, 16384},
        {3, POOL, 16, 1, 0, 0, 16384}, {3, POOL, 4, 1, 0, 0, 4096}, {3, POOL, 16, 1, 0, 0, 4096}, {4, POOL, 16, 1, 0, 0, 4096},
        {3, POOL, 4, 1, MORE, 0, 16384},
    };
    sixteen_mappings();
    for (size_t i = 0; i < COUNT(bad); i++) {
        setup = bad[i];
        granule = setup.granule;
        all_refuse_1();
        if (setup.free < 4) format_two(setup.levels, setup.base, setup.tables, setup.second_base, setup.second_tables, 1);
        granule = OAK_16_KIB;
    }
    setup = (oak_setup){3, POOL, 4, 1, 0, 0, 16384};
    for (size_t i = 0; i < COUNT(numbers); i++) {
        setup.granule = granule = numbers[i];
        all_refuse_1();
        format_is(3, POOL, 4, 1);
        words_len = 512 * 4;
        all_refuse_1();
        format_is(3, POOL, 4, 1);
        words_len = 8192;
        add_is(MORE, 2, 1);
    }
    setup.granule = granule = OAK_16_KIB;
    for (words_len = 8191; words_len <= 8193; words_len += 2) {
        all_refuse_1();
        format_is(3, POOL, 4, 1);
    }
    words_len = 2048;
    all_refuse_1();
    format_is(3, POOL, 4, 1);
    lengths_of(4);
    audit_is(3, 3, 0);
}

/* a pool of one granule, read with the number of the other where all lengths fit: what its words say then */
static void sixteen_mixed_up(void) {
    granule = OAK_4_KIB;
    three_mappings();
    setup.granule = granule = OAK_16_KIB;
    all_refuse_1();
    format_is(3, POOL, 4, 1);
    setup = (oak_setup){3, POOL, 1, 0, 0, 0, OAK_16_KIB}; /* four tables are one of the larger kind, whose number is 0 */
    lengths_of(1);
    query_refused(0, 8);
    query_refused(UINT64_C(512) << 36, 8);
    query_hole(UINT64_C(2047) << 36, UINT64_C(2047) << 36, OAK_64_GIB);
    audit_refused(8);
    fresh(3, POOL, 2);
    writes(0, 0x40004003);
    writes(2048, UINT64_C(0x00400000800007FD));
    map_is(0, FRAME, OAK_32_MIB, 3, 0, 1);
    setup = (oak_setup){3, POOL, 8, 0, 0, 0, OAK_4_KIB}; /* table 1 is the fourth of the smaller kind, and 32 MiB read as 2 MiB */
    list_len = 8;
    query_is(0x1FFFFF, 0, FRAME, OAK_2_MIB, 3);
    query_hole(0x200000, 0x200000, OAK_2_MIB);
    audit_refused(8);
    writes(0, 0);
    writes(2048, 0);
    writes_place(0, 4);
    unmap_is(0, FRAME, OAK_2_MIB, 3, 1);
    granule = OAK_16_KIB;
}

static void sixteen_regions(void) {
    static const uint64_t fine[] = {POOL + 0x8000, POOL - 0xC000, 0, LIMIT - 0xC000};
    static const uint64_t wrong[] = {POOL + 0x4000, POOL - 0x8000, POOL, POOL + 0x6000, MORE + 0x1000, MORE + 0x2000, LIMIT - 0x8000, LIMIT - 0xB000};
    for (size_t i = 0; i < COUNT(fine); i++) fresh_two(3, POOL, 2, fine[i], 3);
    fresh_two(3, POOL, 2, MORE, 3);
    for (size_t i = 0; i < COUNT(wrong); i++) {
        format_two(3, POOL, 2, wrong[i], 3, 1);
        setup = (oak_setup){3, POOL, 2, 2, wrong[i], 3, 16384};
        all_refuse_1();
    }
    fresh_two(3, POOL, 2, MORE, 3);
    writes(0, 0x40004003);
    writes(2048, 0x50000003);
    writes_second(0, UINT64_C(0x00400000800007FF));
    map_is(0, FRAME, OAK_16_KIB, 3, 0, 2);
    writes(1, 0x50004003);
    writes_second(2048, 0x50008003);
    writes_second(4096, UINT64_C(0x00400000800007FF));
    map_is(OAK_64_GIB, FRAME, OAK_16_KIB, 3, 0, 2);
    audit_is(5, 2, 0);
    map_refused(0x4000, MORE + 0x8000, OAK_16_KIB, 3, 11);
    map_refused(0x2000000, MORE, OAK_32_MIB, 3, 11);
    writes_second(1, MORE + 0xC000 + 3 + 0x7FC);
    map_is(0x4000, MORE + 0xC000, OAK_16_KIB, 7, 0, 0);
    writes_second(1, 0);
    unmap_is(0x4000, MORE + 0xC000, OAK_16_KIB, 7, 0);
    writes(0, 0);
    writes(2048, 0);
    writes_second(0, 0);
    writes_place(0, 2);
    writes_place(1, 1);
    unmap_is(0, FRAME, OAK_16_KIB, 3, 2);
    query_is(OAK_64_GIB, OAK_64_GIB, FRAME, OAK_16_KIB, 3);
    damage(1, 0x5000C003); /* past the second region */
    query_refused(OAK_64_GIB, 8);
    /* a region that is added: its tables are as large as the first ones */
    sixteen_mappings();
    lengths_of_two(4, 2);
    add_is(MORE + 0x1000, 2, 1);
    add_is(MORE + 0x2000, 2, 1);
    add_is(POOL + 0xC000, 2, 1);
    add_is(POOL - 0x4000, 2, 1);
    add_is(LIMIT - 0x4000, 2, 1);
    second_len = 512 * 2;
    add_is(MORE, 2, 1);
    lengths_of_two(4, 2);
    add_is(FRAME + 0x4000, 2, 11);
    add_is(FRAME - 0x4000, 2, 11);
    add_is(0x83FFC000, 2, 11);
    add_is(MORE, 2, 0);
    writes(1, 0x50000003);
    writes_second(0, 0x50004003);
    writes_second(2048, UINT64_C(0x00400000800007FF));
    map_is(OAK_64_GIB, FRAME, OAK_16_KIB, 3, 0, 2);
    audit_is(5, 4, 0);
    sixteen_mappings();
    lengths_of_two(4, 2);
    add_is(POOL + 0x10000, 2, 0);
    sixteen_mappings();
    lengths_of_two(4, 2);
    add_is(POOL - 0x8000, 2, 0);
    audit_is(3, 3, 0);
    fresh(3, POOL, 64);
    lengths_of_two(64, 64);
    add_is(MORE, 64, 0);
    audit_is(1, 0, 0);
}

/* 512 tables, each of 16 KiB; 513 are too many */
static void sixteen_many(void) {
    static uint64_t w[2048 * 513];
    static uint32_t l[513];
    oak_setup s;
    oak_mapped m;
    oak_audited a;
    uint64_t refusal = 0;
    test("format", "513 tables are", oak_format(3, POOL, 513, 0, 0, OAK_16_KIB, w, 2048 * 513, OAK_NO_WORDS, 0, l, 513, &s) == 1);
    test("format", "512 tables are", oak_format(3, LIMIT - 512 * 16384, 512, 0, 0, OAK_16_KIB, w, 2048 * 512, OAK_NO_WORDS, 0, l, 512, &s) == 0);
    for (uint64_t i = 0; i < 510 && refusal == 0; i++) {
        refusal = oak_map(&s, w, 2048 * 512, OAK_NO_WORDS, 0, l, 512, i << 25, i << 14, OAK_16_KIB, 3, &m);
        s = m.setup;
    }
    test("map", "the refusal is", refusal == 0 && s.free == 0);
    test("map", "no table is", oak_map(&s, w, 2048 * 512, OAK_NO_WORDS, 0, l, 512, UINT64_C(510) << 25, 0, OAK_16_KIB, 3, &m) == 7);
    test("audit", "the answer is", oak_audit(&s, w, 2048 * 512, OAK_NO_WORDS, 0, l, 512, &a) == 0 && a.tables == 512 && a.mappings == 510);
}

/* with 4 KiB there are no frames of the other granule's sizes */
static void no_frames_of_sixteen(void) {
    three_mappings();
    map_refused(0x8000, FRAME, OAK_16_KIB, 3, 2);
    map_refused(0x4000000, FRAME, OAK_32_MIB, 3, 2);
}

static void sixteen(void) {
    granule = OAK_16_KIB;
    sixteen_cases();
    sixteen_refusals();
    sixteen_damaged();
    sixteen_setups();
    sixteen_mixed_up();
    sixteen_regions();
    sixteen_many();
    granule = OAK_4_KIB;
    no_frames_of_sixteen();
}

int main(void) {
    the_cases();
    more_cases();
    never_the_pool();
    layout();
    bad_setups();
    bad_lengths();
    two_regions();
    ends_of_regions();
    places_of_regions();
    add_cases();
    add_refuses_1();
    add_damaged();
    map_refusals();
    map_damaged();
    damaged_words();
    unmap_refusals();
    query_refusals();
    holes();
    audit_refusals();
    sixteen();
    printf("%lu passed, %lu failed\n", passed, failed);
    return failed != 0;
}
