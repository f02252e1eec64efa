/* The calls on a handle beside the plain ones: histories of random calls on two pools, one by each; after every call the numbers, the answers, all memory and
 * the setups have to agree. Then what a handle alone can get wrong. The last line is 'N passed, M failed'; a history counts as one test. */
#include <stdbool.h>
#include <stdio.h>
#include <string.h>

#include "oakabut.h"

enum { TABLES = 6, MORE = 3, MOST_ENTRIES = 2048, ROOM = 5, CALLS = 400, HISTORIES = 200 };
#define BASE UINT64_C(0x40000000)
#define SECOND_BASE UINT64_C(0x50000000)
#define FRAME UINT64_C(0x80000000)

typedef struct {
    uint64_t words[TABLES * MOST_ENTRIES], second[MORE * MOST_ENTRIES], places[ROOM], entries[ROOM];
    uint32_t list[TABLES + MORE], longer[TABLES + MORE];
} memory;

static memory plain, kept; /* the plain calls' and the handle's */
static oak_setup setup;
static oak_pool pool;
static uint64_t granule, table_words;
static size_t second_len, list_len;
static uint32_t *list; /* the list that the plain calls are lent */
static unsigned long passed, failed;
static uint64_t seed;

static void test(const char *what, bool good) {
    if (good) {
        passed++;
        return;
    }
    failed++;
    printf("%s: wrong\n", what);
}

static uint64_t below(uint64_t limit) {
    seed = seed * UINT64_C(6364136223846793005) + UINT64_C(1442695040888963407);
    return (seed >> 33) % limit;
}

static uint64_t *second_of(memory *m) { return second_len == 0 ? OAK_NO_WORDS : m->second; }

static bool same(void) {
    return memcmp(&plain, &kept, sizeof plain) == 0 && memcmp(&setup, &pool.setup, sizeof setup) == 0 && pool.words == kept.words &&
           pool.words_len == table_words * TABLES && pool.second == second_of(&kept) && pool.second_len == second_len &&
           pool.list == (list == plain.list ? kept.list : kept.longer) && pool.list_len == list_len;
}

/* ---- one call by both */

#define PLAIN plain.words, table_words * TABLES, second_of(&plain), second_len, list, list_len

static bool format_both(uint64_t levels) {
    oak_setup a;
    uint64_t m = second_len / table_words;
    uint64_t number = oak_format(levels, BASE, TABLES, m == 0 ? 0 : SECOND_BASE, m, granule, PLAIN, &a);
    if (number == 0) setup = a; /* else it goes on with the one from before */
    return number == oak_pool_format(&pool, levels, BASE, TABLES, m == 0 ? 0 : SECOND_BASE, m, granule);
}

/* in place, with the list that is lent, or to another list */
static bool add_both(uint64_t base, uint64_t tables, bool in_place) {
    uint32_t *to = in_place ? plain.list : plain.longer, was[TABLES + MORE];
    oak_setup a;
    uint64_t number;
    memcpy(was, to, sizeof was);
    if (list_len != setup.tables) {
        number = OAK_REFUSED_SETUP;
    } else {
        if (!in_place) memcpy(to, list, setup.free * sizeof *list);
        number = oak_add(&setup, plain.words, table_words * TABLES, plain.second, table_words * MORE, to, TABLES + MORE, base, tables, &a);
        if (number != 0) memcpy(to, was, sizeof was);
    }
    uint64_t got = oak_pool_add(&pool, kept.second, table_words * MORE, in_place ? kept.list : kept.longer, TABLES + MORE, base, tables);
    if (number == 0) {
        setup = a;
        list = to;
        second_len = table_words * MORE;
        list_len = TABLES + MORE;
    }
    return number == got;
}

/* with or without an answer that is wanted */
static bool map_both(uint64_t address, uint64_t frame, uint64_t size, uint64_t attributes, bool wanted) {
    oak_mapped a, b;
    uint64_t number = oak_map(&setup, PLAIN, address, frame, size, attributes, &a);
    setup = a.setup;
    uint64_t got = oak_pool_map(&pool, address, frame, size, attributes, wanted ? &b : NULL);
    return number == got && (!wanted || memcmp(&a, &b, sizeof a) == 0);
}

static bool unmap_both(uint64_t address, bool wanted) {
    oak_unmapped a, b;
    uint64_t number = oak_unmap(&setup, PLAIN, address, &a);
    setup = a.setup;
    uint64_t got = oak_pool_unmap(&pool, address, wanted ? &b : NULL);
    return number == got && (!wanted || memcmp(&a, &b, sizeof a) == 0);
}

static bool map_range_both(uint64_t address, uint64_t frame, uint64_t length, uint64_t attributes, bool wanted) {
    oak_mapped a, b;
    uint64_t number = oak_map_range(&setup, PLAIN, address, frame, length, attributes, &a);
    setup = a.setup;
    uint64_t got = oak_pool_map_range(&pool, address, frame, length, attributes, wanted ? &b : NULL);
    return number == got && (!wanted || memcmp(&a, &b, sizeof a) == 0);
}

static bool unmap_range_both(uint64_t address, uint64_t length, bool wanted) {
    oak_removed a, b;
    uint64_t number = oak_unmap_range(&setup, PLAIN, address, length, &a);
    setup = a.setup;
    uint64_t got = oak_pool_unmap_range(&pool, address, length, wanted ? &b : NULL);
    return number == got && (!wanted || memcmp(&a, &b, sizeof a) == 0);
}

static bool query_both(uint64_t address, bool wanted) {
    oak_found a, b;
    uint64_t number = oak_query(&setup, PLAIN, address, &a), got = oak_pool_query(&pool, address, wanted ? &b : NULL);
    return number == got && (!wanted || memcmp(&a, &b, sizeof a) == 0);
}

static bool audit_both(bool wanted) {
    oak_audited a, b;
    uint64_t number = oak_audit(&setup, PLAIN, &a), got = oak_pool_audit(&pool, wanted ? &b : NULL);
    return number == got && (!wanted || memcmp(&a, &b, sizeof a) == 0);
}

static bool list_both(uint64_t start, size_t len, bool wanted) {
    oak_listed a, b;
    uint64_t number = oak_list(&setup, PLAIN, start, plain.places, len, plain.entries, len, &a);
    uint64_t got = oak_pool_list(&pool, start, kept.places, kept.entries, len, wanted ? &b : NULL);
    return number == got && (!wanted || memcmp(&a, &b, sizeof a) == 0);
}

/* ---- histories */

static void begin(uint64_t with_granule) {
    memset(&plain, 0xA5, sizeof plain);
    kept = plain;
    memset(&setup, 0, sizeof setup);
    granule = with_granule;
    table_words = granule / 8;
    second_len = 0;
    list_len = TABLES;
    list = plain.list;
    oak_pool fresh = OAK_POOL(kept.words, table_words * TABLES, kept.list, TABLES);
    pool = fresh;
}

static bool one_call(void) {
    uint64_t block = granule == OAK_4_KIB ? OAK_2_MIB : OAK_32_MIB, size = below(4) == 0 ? block : granule;
    uint64_t address = below(3) * block + below(4) * granule + below(2) * (UINT64_C(1) << 37), frame = FRAME + below(8) * block;
    bool wanted = below(2) == 0;
    if (size == block && below(8) != 0) address -= address % block;
    switch (below(14)) {
    case 0: return below(8) != 0 || format_both(3 + below(3));
    case 1: return below(4) != 0 || add_both(below(4) == 0 ? BASE : SECOND_BASE, below(4) == 0 ? 0 : MORE, below(2) == 0);
    case 2: return audit_both(wanted);
    case 3: return list_both(address, below(ROOM + 1), wanted);
    case 4: return query_both(address + below(3), wanted);
    case 5:
    case 6:
    case 7: return unmap_both(address, wanted);
    case 8: return map_range_both(address, frame, below(5) * granule + below(2) * block, below(17), wanted);
    case 9: return unmap_range_both(address, below(5) * granule + below(2) * block, wanted);
    default: return map_both(address, frame, size, below(17), wanted);
    }
}

static void histories(void) {
    for (seed = 0; failed == 0 && passed < HISTORIES;) {
        bool good = true;
        begin(passed % 2 == 0 ? OAK_4_KIB : OAK_16_KIB);
        good = format_both(3) && same() && setup.levels == 3;
        for (int i = 0; good && i < CALLS; i++) good = one_call() && same();
        test("a history", good);
    }
}

/* ---- what a handle alone can get wrong */

static void by_themselves(void) {
    oak_found found;
    oak_mapped mapped;
    begin(OAK_4_KIB);
    memset(&found, 0x5A, sizeof found);
    test("a query before format", oak_pool_query(&pool, 0, &found) == OAK_REFUSED_SETUP && found.frame == 0);
    test("a map before format", oak_pool_map(&pool, 0, FRAME, OAK_4_KIB, 3, NULL) == OAK_REFUSED_SETUP);
    test("an unmap before format", oak_pool_unmap(&pool, 0, NULL) == OAK_REFUSED_SETUP);
    test("an audit before format", oak_pool_audit(&pool, NULL) == OAK_REFUSED_SETUP);
    test("a list before format", oak_pool_list(&pool, 0, kept.places, kept.entries, ROOM, NULL) == OAK_REFUSED_SETUP);
    test("an add before format",
         oak_pool_add(&pool, kept.second, 512 * MORE, kept.longer, TABLES + MORE, SECOND_BASE, MORE) == OAK_REFUSED_SETUP && pool.second_len == 0);
    test("all of these change nothing", memcmp(&plain, &kept, sizeof plain) == 0);
    test("format", oak_pool_format(&pool, 3, BASE, TABLES, 0, 0, OAK_4_KIB) == 0 && pool.setup.free == TABLES - 1);
    test("a format that is refused keeps the setup", oak_pool_format(&pool, 5, BASE, TABLES, 0, 0, OAK_4_KIB) == 1 && pool.setup.free == TABLES - 1);
    /* with an old setup the second map would take the first one's tables */
    test("a map", oak_pool_map(&pool, 0, FRAME, OAK_4_KIB, 3, &mapped) == 0 && mapped.taken == 2 && pool.setup.free == TABLES - 3);
    test("a map far away", oak_pool_map(&pool, UINT64_C(1) << 38, FRAME, OAK_4_KIB, 3, NULL) == 0 && pool.setup.free == TABLES - 5);
    test("both are there", oak_pool_query(&pool, 0, &found) == 0 && oak_pool_query(&pool, UINT64_C(1) << 38, &found) == 0);
    test("and the pool is sound", oak_pool_audit(&pool, NULL) == 0);
    pool.list_len = 1; /* a handle whose list does not fit its setup */
    test("an add to a short list", oak_pool_add(&pool, kept.second, 512 * MORE, kept.longer, TABLES + MORE, SECOND_BASE, MORE) == OAK_REFUSED_SETUP);
    oak_pool two = OAK_POOL_OF_TWO(kept.words, 512 * TABLES, kept.second, 512 * MORE, kept.list, TABLES + MORE);
    test("a format of two regions", oak_pool_format(&two, 4, BASE, TABLES, SECOND_BASE, MORE, OAK_4_KIB) == 0 && oak_pool_audit(&two, NULL) == 0);
}

int main(void) {
    histories();
    by_themselves();
    printf("%lu passed, %lu failed\n", passed, failed);
    return failed != 0;
}
