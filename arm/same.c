/* The same calls on two machines.
 *
 * arm/same builds this file twice, for x86-64 and for Arm, each time with the library of that machine, runs both and compares what
 * they write. All calls come from one fixed generator. A history formats a pool and then makes calls of every kind on it, most of them
 * sensible, some past a limit, some with a setup or a length that breaks the rules; every other history also damages the pool now
 * and then. Some pools have two regions of tables from the start, and to the others one may be added. A third of the histories begins
 * with the larger granule; now and then a pool is lent under the number of the other one. Each answer goes into a hash, refusals and
 * records alike, and after each call all words of both runs and places of the list do too; of a list also the two runs that it writes.
 *
 * A line begins with the number of its history: every 64th call with its answer, and at the end the hashes. The last line counts
 * how often each function gave each answer; the program fails where one that can be given never was. */
#include <inttypes.h>
#include <stdbool.h>
#include <stdio.h>
#include <string.h>

#include "oakabut.h"

enum { HISTORIES = 144, CALLS = 256, SHOW = 64, MOST_TABLES = 512, USUAL_TABLES = 64, MOST_SECOND = 16, MAPPED = 16 };
enum { ROOM = 40 };
enum { WORDS = 512 * MOST_TABLES, SECOND_WORDS = 2048 * MOST_SECOND, PLACES = MOST_TABLES + 4 * MOST_SECOND };
#define LIMIT (UINT64_C(1) << 48)

static uint64_t words[WORDS], second[SECOND_WORDS];
static uint32_t list[PLACES];
static uint64_t places[ROOM], entries[ROOM]; /* of a list */
static oak_setup setup;

/* the size of the pool's tables and the words of so many; of the smaller granule where the number is none */
static uint64_t table(void) { return setup.granule == OAK_16_KIB ? OAK_16_KIB : OAK_4_KIB; }
static uint64_t words_of(uint64_t granule, uint64_t tables) { return (granule == OAK_16_KIB ? 2048 : 512) * tables; }

/* ---- numbers from a fixed generator; no expression draws two, since C leaves their order open */

static uint64_t state;

static uint64_t random64(void) {
    uint64_t z = (state += UINT64_C(0x9E3779B97F4A7C15));
    z = (z ^ (z >> 30)) * UINT64_C(0xBF58476D1CE4E5B9);
    z = (z ^ (z >> 27)) * UINT64_C(0x94D049BB133111EB);
    return z ^ (z >> 31);
}

static uint64_t below(uint64_t n) { return random64() % n; }
static bool once_in(uint64_t n) { return below(n) == 0; }

/* any number, of any length */
static uint64_t anything(void) {
    uint64_t length = below(64);
    return random64() >> length;
}

static uint64_t some_size(void) {
    static const uint64_t sizes[] = {OAK_4_KIB, OAK_4_KIB, OAK_4_KIB, OAK_2_MIB, OAK_2_MIB, OAK_1_GIB};
    static const uint64_t larger[] = {OAK_16_KIB, OAK_16_KIB, OAK_16_KIB, OAK_32_MIB, OAK_32_MIB, OAK_32_MIB};
    if (once_in(32)) return anything();
    if (once_in(32)) return UINT64_C(1) << below(64);
    return once_in(16) == (table() == OAK_16_KIB) ? sizes[below(6)] : larger[below(6)];
}

/* a granule's number, or one beside it */
static uint64_t some_granule(void) {
    static const uint64_t numbers[] = {0, 4095, 4096, 8192, 16383, 16384, 65536};
    return once_in(8) ? anything() : numbers[below(7)];
}

static uint64_t some_attributes(void) { return once_in(32) ? anything() : below(16); }

/* an address in one of few regions, so that calls meet each other: at each level one of four indices, or any */
static uint64_t some_address(uint64_t size) {
    const uint64_t entries = table() / 8, few[] = {0, 1, 2, entries - 1};
    uint64_t address = 0, region = table();
    if (once_in(32)) return anything();
    for (unsigned level = 0; level < setup.levels && level < 4; level++) {
        uint64_t index = once_in(12) ? below(entries) : few[below(4)];
        address += index * region;
        region *= entries;
    }
    if (once_in(40)) address += UINT64_C(1) << (39 + below(25));
    if (once_in(32)) return address + below(table());
    if (once_in(32)) return address + OAK_4_KIB * below(4);
    return size != 0 && !once_in(32) ? address - address % size : address;
}

static uint64_t some_frame(uint64_t size) {
    if (once_in(32)) return anything();
    if (once_in(16)) return LIMIT - size;
    if (once_in(12) && size != 0) {
        uint64_t first = setup.base + table() * below(setup.tables + 1), more = setup.second_base + table() * below(setup.second_tables + 1);
        uint64_t near = (setup.second_tables != 0 && once_in(2) ? more : first) - (once_in(3) ? size : 0);
        return near - near % size;
    }
    return size != 0 && size < LIMIT ? below(LIMIT / size) * size : below(LIMIT);
}

/* ---- what is written */

static unsigned history, call;
static uint64_t hash;
static unsigned long given[11][13]; /* how often a function gave a refusal; 0 counts what is none, 12 what should not be */

static void add(uint64_t number) {
    hash = (hash ^ number) * UINT64_C(0x9FB21C651E98DF25);
    hash ^= hash >> 29;
}

static void add_memory(size_t words_len, size_t second_len, size_t list_len) {
    for (size_t i = 0; i < words_len; i++) add(words[i]);
    for (size_t i = 0; i < second_len; i++) add(second[i]);
    for (size_t i = 0; i < list_len; i++) add(list[i]);
}

/* takes an answer of count numbers into the hash, and writes it now and then */
static void answered(unsigned function, const char *name, uint64_t refusal, const void *answer, size_t count) {
    uint64_t numbers[13];
    memcpy(numbers, answer, 8 * count);
    given[function][refusal < 12 ? refusal : function > 8 ? 0 : 12]++;
    add(refusal);
    for (size_t i = 0; i < count; i++) add(numbers[i]);
    if (call % SHOW != 0) return;
    printf("%u call %u %s: %#" PRIx64 ",", history, call, name, refusal);
    for (size_t i = 0; i < count; i++) printf(" %#" PRIx64, numbers[i]);
    printf("\n");
}

/* ---- the calls */

struct lent {
    oak_setup setup;
    size_t words, second, list;
};
#define LENT(l) words, l.words, second, l.second, list, l.list

/* the same words under the number of the other granule, where one table is four of the smaller */
static struct lent mixed_up(struct lent l) {
    oak_setup *s = &l.setup;
    if (table() == OAK_16_KIB) s->granule = OAK_4_KIB, s->tables *= 4, s->second_tables *= 4;
    else s->granule = OAK_16_KIB, s->levels = 3, s->tables /= 4, s->second_tables /= 4, s->free /= 4;
    l.words = words_of(s->granule, s->tables), l.second = words_of(s->granule, s->second_tables), l.list = s->tables + s->second_tables;
    if (s->second_tables == 0) s->second_base = 0;
    return l;
}

/* the setup and the lengths of the pool; now and then one of them is wrong */
static struct lent lent(void) {
    struct lent l = {setup, words_of(setup.granule, setup.tables), words_of(setup.granule, setup.second_tables), setup.tables + setup.second_tables};
    if (!once_in(20)) return l;
    switch (below(12)) {
    case 10: l.setup.granule = some_granule(); break;
    case 11: return mixed_up(l);
    case 7: l.setup.second_base = once_in(2) ? anything() : l.setup.base + table() * below(3); break;
    case 8: l.setup.second_tables = once_in(2) ? anything() : below(MOST_SECOND); break;
    case 9: l.second = once_in(2) ? l.second + 1 : 512; break;
    case 0: l.setup.levels = below(7); break;
    case 1: l.setup.base = once_in(3) ? l.setup.base + 1 : once_in(2) ? l.setup.base + OAK_4_KIB : anything(); break;
    case 2: l.setup.base = LIMIT - table() * l.setup.tables + OAK_4_KIB * below(5); break;
    case 3: l.setup.tables = once_in(2) ? anything() : once_in(2) ? MOST_TABLES + below(2) : below(USUAL_TABLES + 2); break;
    case 4: l.setup.free = once_in(2) ? anything() : l.setup.tables + l.setup.second_tables; break;
    case 5: l.words += once_in(2) ? 1 : 512; break;
    default: l.list -= 1; break;
    }
    return l;
}

/* a base for a second region of so many tables: touching the first, at a limit, overlapping it, or anywhere */
static uint64_t some_second_base(uint64_t tables) {
    uint64_t anywhere = below(LIMIT / (2 * table())) * table();
    switch (below(9)) {
    case 8: return anywhere + OAK_4_KIB;
    case 0: return setup.base + table() * setup.tables;
    case 1: return setup.base - table() * tables;
    case 2: return LIMIT - table() * tables;
    case 3: return setup.base + table() * (setup.tables - 1);
    case 4: return setup.base - table() * tables + table();
    case 5: return once_in(2) ? anywhere + 1 : anything();
    default: return anywhere;
    }
}

static void call_format(void) {
    oak_setup answer;
    memset(&answer, 0x5A, sizeof answer);
    uint64_t levels = once_in(8) ? below(7) : setup.levels, base = once_in(8) ? anything() : setup.base;
    uint64_t tables = once_in(8) ? below(USUAL_TABLES + 3) : setup.tables, room = once_in(8) ? below(USUAL_TABLES + 1) : tables;
    uint64_t more = once_in(4) ? below(MOST_SECOND + 2) : setup.second_tables, second_room = once_in(8) ? below(MOST_SECOND + 1) : more;
    uint64_t second_base = more != setup.second_tables ? some_second_base(more) : setup.second_base;
    uint64_t granule = once_in(4) ? some_granule() : setup.granule;
    if (more == 0 && !once_in(8)) second_base = 0;
    if (words_of(granule, room) > WORDS) room = WORDS / words_of(granule, 1);
    if (second_room > MOST_SECOND) second_room = MOST_SECOND;
    struct lent l = {setup, words_of(granule, room), words_of(granule, second_room), room + second_room};
    uint64_t refusal = oak_format(levels, base, tables, second_base, more, granule, LENT(l), &answer);
    answered(0, "format", refusal, &answer, 7);
    if (refusal == 0) setup = answer;
}

static uint64_t mapped[MAPPED]; /* some addresses that were mapped, for unmap and query */

static void call_map(void) {
    oak_mapped answer;
    struct lent l = lent();
    uint64_t size = some_size();
    memset(&answer, 0x5A, sizeof answer);
    uint64_t address = some_address(size), frame = some_frame(size), attributes = some_attributes();
    uint64_t refusal = oak_map(&l.setup, LENT(l), address, frame, size, attributes, &answer);
    answered(1, "map", refusal, &answer, 8);
    if (refusal == 0) setup = answer.setup, mapped[below(MAPPED)] = address;
}

static void call_unmap(void) {
    oak_unmapped answer;
    struct lent l = lent();
    memset(&answer, 0x5A, sizeof answer);
    uint64_t address = once_in(2) ? mapped[below(MAPPED)] : some_address(table());
    uint64_t refusal = oak_unmap(&l.setup, LENT(l), address, &answer);
    answered(2, "unmap", refusal, &answer, 13);
    if (refusal == 0) setup = answer.setup;
}

static void call_query(void) {
    oak_found answer;
    struct lent l = lent();
    memset(&answer, 0x5A, sizeof answer);
    uint64_t address = once_in(2) ? mapped[below(MAPPED)] + below(table()) : some_address(0);
    uint64_t refusal = oak_query(&l.setup, LENT(l), address, &answer);
    answered(3, "query", refusal, &answer, 6);
}

static void call_audit(void) {
    oak_audited answer;
    struct lent l = lent();
    memset(&answer, 0x5A, sizeof answer);
    uint64_t refusal = oak_audit(&l.setup, LENT(l), &answer);
    answered(4, "audit", refusal, &answer, 2);
}

/* a second region, sometimes at a frame that is mapped */
static void call_add(void) {
    oak_setup answer;
    struct lent l = lent();
    uint64_t tables = once_in(8) ? below(MOST_SECOND + 2) : 1 + below(4), base = some_second_base(tables);
    if (once_in(2)) {
        oak_found found;
        uint64_t address = mapped[below(MAPPED)];
        struct lent good = {setup, words_of(setup.granule, setup.tables), words_of(setup.granule, setup.second_tables),
                            setup.tables + setup.second_tables};
        if (oak_query(&setup, LENT(good), address, &found) == 0) base = found.frame + (once_in(2) ? found.size : 0) - table() * below(3);
    }
    if (l.second == words_of(setup.granule, l.setup.second_tables) && tables <= MOST_SECOND)
        l.second = words_of(setup.granule, tables), l.list = l.setup.tables + tables;
    if (l.list > PLACES) l.list = MOST_TABLES;
    memset(&answer, 0x5A, sizeof answer);
    uint64_t refusal = oak_add(&l.setup, LENT(l), base, tables, &answer);
    answered(5, "add", refusal, &answer, 7);
    if (refusal == 0) setup = answer;
}

/* from 0, from a mapping or beside it, from the base that the last one answered, or from anywhere; into runs that held a pattern, all of which is hashed */
static void call_list(void) {
    static uint64_t next;
    oak_listed answer;
    struct lent l = lent();
    uint64_t kind = below(8), start = kind < 2 ? 0 : kind < 4 ? next : kind < 6 ? mapped[below(MAPPED)] : some_address(0);
    uint64_t room = once_in(3) ? below(4) : below(ROOM + 1), other = once_in(20) ? below(ROOM + 1) : room;
    memset(places, 0xA5, sizeof places);
    memset(entries, 0xA5, sizeof entries);
    memset(&answer, 0x5A, sizeof answer);
    if (kind == 5) start += below(2 * table());
    uint64_t refusal = oak_list(&l.setup, LENT(l), start, places, room, entries, other, &answer);
    answered(6, "list", refusal, &answer, 3);
    for (size_t i = 0; i < ROOM; i++) add(places[i]), add(entries[i]);
    next = answer.next;
}

/* a length of few pages, of what some size takes, up to the end of a region, of 4 GiB, or beside a limit */
static uint64_t some_length(uint64_t address) {
    uint64_t block = table() * (table() / 8), large = block * (table() / 8), blocks = 1 + below(4);
    switch (below(12)) {
    case 0: return anything();
    case 1: return (UINT64_C(1) << 32) + table() * below(2);
    case 2: return (UINT64_C(1) << 32) - table() * below(3);
    case 3: return block - address % block + table() * below(3);
    case 4: return large - address % large + table() * below(3);
    case 5: return block * blocks + table() * below(2);
    case 6: return OAK_4_KIB * below(6);
    case 7: return UINT64_C(1) << below(64);
    default: return table() * (1 + below(8));
    }
}

static void call_map_range(void) {
    oak_mapped answer;
    struct lent l = lent();
    uint64_t size = some_size();
    memset(&answer, 0x5A, sizeof answer);
    uint64_t address = some_address(once_in(2) ? size : table()), length = some_length(address), attributes = some_attributes();
    uint64_t block = table() * (table() / 8), frame = some_frame(once_in(3) ? table() : block);
    if (!once_in(3)) frame += address % block;
    uint64_t refusal = oak_map_range(&l.setup, LENT(l), address, frame, length, attributes, &answer);
    answered(7, "map_range", refusal, &answer, 8);
    if (refusal == 0) setup = answer.setup, mapped[below(MAPPED)] = address;
}

static void call_unmap_range(void) {
    oak_removed answer;
    struct lent l = lent();
    memset(&answer, 0x5A, sizeof answer);
    uint64_t address = once_in(2) ? mapped[below(MAPPED)] : some_address(table()), length = some_length(address);
    uint64_t refusal = oak_unmap_range(&l.setup, LENT(l), address, length, &answer);
    answered(8, "unmap_range", refusal, &answer, 9);
    if (refusal == 0) setup = answer.setup;
}

static void call_words(void) {
    uint64_t size = some_size(), frame = some_frame(size), attributes = some_attributes();
    uint64_t word = oak_frame_word(frame, size, attributes);
    answered(9, "frame_word", word, &word, 1);
    if (once_in(3)) word ^= UINT64_C(1) << below(64);
    if (once_in(3)) size = some_size();
    uint64_t meaning = oak_word_meaning(word, size);
    answered(10, "word_meaning", meaning, &meaning, 1);
}

/* one change that no call makes: of a word, mostly one in use, or of the list; the setup's free count may lag behind too */
static void damage(void) {
    uint64_t size = some_size(), frame = some_frame(size), all = setup.tables + setup.second_tables, place = below(all);
    uint64_t entries = table() / 8, *word = &words[below(entries * setup.tables)];
    for (size_t i = 0; i < 512 && *word == 0; i++) {
        uint64_t number = below(all), entry = below(3);
        word = number < setup.tables ? &words[entries * number + entry] : &second[entries * (number - setup.tables) + entry];
    }
    switch (below(7)) {
    case 0: *word ^= UINT64_C(1) << below(64); break;
    case 1: *word = random64(); break;
    case 2: *word = setup.base + table() * below(setup.tables + 1) + 3; break;
    case 6: *word = setup.second_base + table() * below(setup.second_tables + 1) + 3; break;
    case 3: *word = oak_frame_word(frame, size, below(16)); break;
    case 4: list[place] = (uint32_t)below(all + 2); break;
    default: setup.free = below(all); break;
    }
}

static void one_history(void) {
    static const uint64_t counts[] = {1, 2, 3, 4, 5, 6, 8, 8};
    hash = history, state = UINT64_C(1000003) * history;
    uint64_t granule = history < HISTORIES / 3 * 2 ? OAK_4_KIB : OAK_16_KIB, most = WORDS / words_of(granule, 1);
    uint64_t tables = history % 16 == 15 ? most : counts[history / 2 % 8];
    uint64_t bases[] = {UINT64_C(0x40000000), 0, LIMIT - granule * tables, below(LIMIT / (2 * granule)) * granule};
    setup = (oak_setup){granule == OAK_16_KIB || history % 4 < 2 ? 3 : 4, bases[below(4)], tables, 0, 0, 0, granule};
    /* every third pool has two regions from the start: the second touches the first, or stands far from it */
    uint64_t more = history % 3 == 0 && tables + MOST_SECOND <= most ? 1 + below(MOST_SECOND) : 0, above = setup.base + granule * tables;
    uint64_t second_base = more == 0 ? 0 : above + granule * more > LIMIT ? setup.base - granule * more : above + (once_in(2) ? 0 : granule * below(5));
    if (second_base + granule * more > LIMIT) second_base = setup.base - granule * more;
    memset(words, 0xA5, sizeof words);
    memset(second, 0xA5, sizeof second);
    memset(list, 0xA5, sizeof list);
    memset(mapped, 0, sizeof mapped);
    uint64_t refusal = oak_format(setup.levels, setup.base, tables, second_base, more, granule, words, words_of(granule, tables), second,
                                  words_of(granule, more), list, tables + more, &setup);
    answered(0, "format", refusal, &setup, 7);
    for (call = 1; call <= CALLS; call++) {
        uint64_t kind = below(64);
        if (history % 2 == 1 && once_in(16)) damage();
        if (kind == 0) call_format();
        else if (kind < 24) call_map();
        else if (kind < 30) call_map_range();
        else if (kind < 40) call_unmap();
        else if (kind < 44) call_unmap_range();
        else if (kind < 54) call_query();
        else if (kind < 57) call_list();
        else if (kind < 60) call_audit();
        else if (kind < 62) call_add();
        else call_words();
        add_memory(words_of(setup.granule, setup.tables), words_of(setup.granule, setup.second_tables), setup.tables + setup.second_tables);
    }
    uint64_t answers = hash;
    hash = 0;
    add_memory(WORDS, SECOND_WORDS, PLACES);
    printf("%u levels %" PRIu64 " tables %" PRIu64 " and %" PRIu64 " of %" PRIu64 " bytes calls %d: ", history, setup.levels, setup.tables,
           setup.second_tables, setup.granule, CALLS);
    printf("answers and memory %016" PRIx64 ", memory at the end %016" PRIx64 "\n", answers, hash);
}

/* the refusals that a function can give, as bits; bit 0 is an answer */
static const struct {
    const char *name;
    unsigned can;
} functions[11] = {{"format", 0x003}, {"map", 0x9FF},  {"unmap", 0x733},      {"query", 0x313},       {"audit", 0x103},
                  {"add", 0x903},    {"list", 0x113}, {"map_range", 0x9FF},   {"unmap_range", 0x537},  {"frame_word", 0x03D},
                   {"word_meaning", 0x105}};

int main(void) {
    bool all = true;
    for (history = 0; history < HISTORIES; history++) one_history();
    printf("answers:");
    for (unsigned f = 0; f < 11; f++) {
        printf("%s %s", f == 0 ? "" : ";", functions[f].name);
        for (unsigned r = 0; r < 13; r++) {
            if (given[f][r] != 0) printf(" %u:%lu", r, given[f][r]);
            if ((given[f][r] != 0) != (functions[f].can >> r & 1)) all = false;
        }
    }
    printf("%s\n", all ? "" : "; an answer that can be given was not, or one was that cannot be");
    return !all;
}
