/* The machine as judge: does the processor's own walker read the tables as oak_query does?
 *
 * Runs at EL2 on the board (arm/judge). The pool stands at its own physical address, in one region or in two, and is the machine's
 * stage 2: three or four levels of 4 KiB tables, or three of 16 KiB. Seeded histories of calls change it; in some a second region is
 * added. After each call, and at the end of a history for every live mapping, the machine is asked by AT S12E1R and AT S12E1W what it
 * makes of an address: inside mappings and outside, at their edges, past the space. Its answer, PAR_EL1, has to be what oak_query says:
 * the frame, memory type and shareability, or a fault of the right kind and level; where nothing is mapped, the level at which the
 * machine's walk stopped is that of the hole. oak_query has to say what a plain list of the accepted maps says, and the audit has to
 * count as many mappings.
 *
 * AT does not tell whether an instruction may be fetched. So a guest also loads, stores and fetches, under all sixteen attributes.
 * The last line is 'N passed, M failed': each history is one test, and each of the two parts at the end is one. */
#include <stdbool.h>

#include "board.h"
#include "oakabut.h"

/* the last third of the histories is of the larger granule */
enum { HISTORIES = 96, CALLS = 96, MOST_TABLES = 512, MOST_SECOND = 8 };

static uint64_t pool[2048 * MOST_TABLES] __attribute__((aligned(16384)));
static uint64_t spare[2048 * MOST_SECOND] __attribute__((aligned(16384))); /* the second region, where there is one */
static uint32_t list[MOST_TABLES];
static oak_setup setup;
#define WORDS(tables) (granule / 8 * (tables))
#define LENT pool, WORDS(setup.tables), spare, WORDS(setup.second_tables), list, setup.tables + setup.second_tables

static uint64_t passed, failed, differences;

/* ---- the granule of the pool: the sizes of its frames, and the trees that there are */

static uint64_t granule;

enum { THREE, FOUR, LARGE, TREES };
static unsigned tree(void) { return granule == OAK_16_KIB ? LARGE : setup.levels == 3 ? THREE : FOUR; }

static const uint64_t of_4_kib[] = {OAK_4_KIB, OAK_2_MIB, OAK_1_GIB}, of_16_kib[] = {OAK_16_KIB, OAK_32_MIB};
static uint64_t size_count(void) { return granule == OAK_16_KIB ? 2 : 3; }
static uint64_t size_of(uint64_t number) { return granule == OAK_16_KIB ? of_16_kib[number] : of_4_kib[number]; }

static uint64_t size_number(uint64_t size) {
    uint64_t number = 0;
    while (number + 1 < size_count() && size_of(number) != size) number++;
    return number;
}

/* what an entry of a level stands for: the last level is 3 */
static uint64_t size_at(uint64_t level) { return UINT64_C(1) << (granule == OAK_16_KIB ? 47 - 11 * level : 39 - 9 * level); }

static uint64_t space(void) { return granule == OAK_16_KIB ? UINT64_C(1) << 47 : setup.levels == 3 ? UINT64_C(1) << 39 : UINT64_C(1) << 48; }

static void test(bool good) {
    if (good) passed++;
    else failed++;
}

static uint64_t state;

static uint64_t random64(void) {
    uint64_t z = (state += UINT64_C(0x9E3779B97F4A7C15));
    z = (z ^ (z >> 30)) * UINT64_C(0xBF58476D1CE4E5B9);
    z = (z ^ (z >> 27)) * UINT64_C(0x94D049BB133111EB);
    return z ^ (z >> 31);
}

static uint64_t below(uint64_t n) { return random64() % n; }

/* ---- the accepted maps */

enum { PIECES = 8 }; /* a range has at most so many: three pages, two blocks, three pages */
static oak_found live[CALLS * PIECES];
static uint64_t lives, maps; /* how many now, and at most in any history */

/* the first that shares a byte with the region, or none */
static const oak_found *live_in(uint64_t base, uint64_t size) {
    for (uint64_t i = 0; i < lives; i++)
        if (base < live[i].base + live[i].size && live[i].base < base + size) return &live[i];
    return NULL;
}

/* The level of the entry at which a walk for an address that is not mapped must end: the first whose region has no mapping in it, since
 * tables stand exactly where mappings need them. */
static uint64_t hole_level(uint64_t address) {
    for (uint64_t level = 4 - setup.levels; level < 3; level++)
        if (live_in(address - address % size_at(level), size_at(level)) == NULL) return level;
    return 3;
}

/* ---- one address */

enum { TRANSLATED, FORBIDDEN, NOTHING, PAST, KINDS };
static uint64_t asked[KINDS];      /* how often each kind of answer was due */
static uint64_t hits[TREES][3][16][2]; /* the same for mapped addresses: by tree, size, attributes, read or write */

/* PAR_EL1's ATTR and SH. Stage 1 says 'normal, write-back, not shared', so what they show is what stage 2 says. */
#define DEVICE 0x00     /* Device-nGnRnE */
#define NORMAL 0xFF     /* inner and outer write-back */
#define DEVICE_SHARED 2 /* outer, as for all device memory */
#define NORMAL_SHARED 3 /* inner */

static uint64_t machine(uint64_t address, bool write) {
    if (write) __asm__ volatile("at s12e1w, %0\n isb" : : "r"(address) : "memory");
    else __asm__ volatile("at s12e1r, %0\n isb" : : "r"(address) : "memory");
    return READ_REGISTER(par_el1);
}

/* Whether PAR_EL1 is what oak_query's answer asks for; counts it. */
static bool agrees(uint64_t address, bool write, uint64_t refusal, const oak_found *found, uint64_t par) {
    bool fault = par & 1, stage2 = par >> 9 & 1, device = found->attributes & OAK_DEVICE;
    uint64_t kind = par >> 3 & 15, level = par >> 1 & 3; /* of a fault: 0 address size, 1 translation, 3 permission */
    if (refusal == 4) {
        asked[PAST]++;
        return fault && kind <= 1;
    }
    if (refusal == 9) {
        /* the machine's walk stops at the level of the hole that oak_query answers */
        asked[NOTHING]++;
        return fault && stage2 && kind == 1 && level == hole_level(address) && found->hole_size == size_at(level) &&
               found->hole_base == address - address % size_at(level);
    }
    if (refusal != 0) return false;
    hits[tree()][size_number(found->size)][found->attributes][write]++;
    if (!(found->attributes & (write ? OAK_WRITE : OAK_READ))) {
        asked[FORBIDDEN]++;
        return fault && stage2 && kind == 3 && level == 3 - size_number(found->size);
    }
    asked[TRANSLATED]++;
    uint64_t target = found->frame + (address - found->base);
    return !fault && (par & UINT64_C(0x000FFFFFFFFFF000)) == target - target % 4096 && par >> 56 == (device ? DEVICE : NORMAL) &&
           (par >> 7 & 3) == (device ? DEVICE_SHARED : NORMAL_SHARED);
}

static void ask(uint64_t address) {
    oak_found found;
    const oak_found *want = live_in(address, 1);
    uint64_t refusal = oak_query(&setup, LENT, address, &found);
    bool as_listed = want == NULL ? refusal == (address >= space() ? 4 : 9)
                                  : refusal == 0 && memcmp(want, &found, sizeof found) == 0;
    for (int write = 0; write < 2; write++) {
        uint64_t par = machine(address, write);
        if (as_listed && agrees(address, write, refusal, &found, par)) continue;
        if (differences++ < 10)
            say("DIFFERENCE at %x (%s): query %u base %x frame %x size %x attributes %u; PAR_EL1 %x\n", address, write ? "write" : "read",
                refusal, found.base, found.frame, found.size, found.attributes, par);
    }
}

static void ask_around(uint64_t address, uint64_t size) {
    uint64_t inside = below(size);
    ask(address - 1);
    ask(address);
    ask(address + inside);
    ask(address + size - 1);
    ask(address + size);
    ask(address + (UINT64_C(1) << (below(25) + 39))); /* cut to the space, this might be the same again */
}

/* ---- histories */

/* an address in one of few regions, so that mappings lie side by side: at each level one of four indices, or any */
static uint64_t some_address(uint64_t size) {
    const uint64_t few[] = {0, 1, 2, granule / 8 - 1};
    uint64_t address = 0;
    for (uint64_t level = 4 - setup.levels; level < 4; level++) {
        uint64_t index = below(8) == 0 ? below(granule / 8) : few[below(4)];
        address += index * size_at(level);
    }
    return address - address % size;
}

static void map_something(void) {
    oak_mapped answer;
    uint64_t size = size_of(below(size_count())), address = some_address(size), last = (UINT64_C(1) << 48) - size;
    uint64_t frame = below(8) == 0 ? last : below(last / size) * size, attributes = below(16);
    if (oak_map(&setup, LENT, address, frame, size, attributes, &answer) == 0)
        live[lives++] = (oak_found){address, frame, size, attributes, 0, 0};
    setup = answer.setup;
    stage2_changed();
    ask_around(address, size);
}

static void unmap_something(void) {
    oak_unmapped answer;
    uint64_t which = below(CALLS), address = which < lives ? live[which].base : some_address(granule);
    uint64_t refusal = oak_unmap(&setup, LENT, address, &answer);
    for (uint64_t i = 0; refusal == 0 && i < lives; i++)
        if (live[i].base == address) {
            live[i] = live[--lives];
            break;
        }
    setup = answer.setup;
    stage2_changed();
    ask_around(address, refusal == 0 ? answer.size : granule);
}

/* A range around the start of a block, whose frames lie as the addresses do: pages, blocks and pages again. The pieces go to the list. */
static uint64_t ranges, cleared;

static void map_range_something(void) {
    oak_mapped answer;
    uint64_t block = size_of(1), before = below(4) * granule, middle = below(3) * block, address = some_address(block);
    uint64_t start = address < before ? address : address - before, length = before + middle + below(4) * granule, attributes = below(16);
    uint64_t frame = below((UINT64_C(1) << 48) / block - 4) * block + start % block;
    if (oak_map_range(&setup, LENT, start, frame, length, attributes, &answer) == 0) {
        ranges++;
        for (uint64_t done = 0, size; done < length; done += size) {
            uint64_t number = size_count() - 1;
            while (size_of(number) > length - done || (start + done) % size_of(number) != 0 || (frame + done) % size_of(number) != 0) number--;
            size = size_of(number);
            live[lives++] = (oak_found){start + done, frame + done, size, attributes, 0, 0};
        }
    }
    setup = answer.setup;
    stage2_changed();
    ask_around(start, length == 0 ? granule : length);
    ask_around(address, granule);
}

/* All mappings of a range go, or none where it cuts one. Whether the library answers so. */
static bool unmap_range_something(void) {
    oak_removed answer;
    uint64_t which = below(CALLS), near = which < lives ? live[which].base : some_address(granule), below_it = below(3) * granule;
    uint64_t address = near < below_it ? near : near - below_it, length = below_it + granule * (1 + below(3)) + below(2) * size_of(1);
    uint64_t refusal = oak_unmap_range(&setup, LENT, address, length, &answer), inside = 0;
    bool cut = false;
    for (uint64_t i = 0; i < lives; i++) {
        bool meets = live[i].base < address + length && address < live[i].base + live[i].size;
        bool in = address <= live[i].base && live[i].base + live[i].size <= address + length;
        inside += in;
        cut |= meets && !in;
    }
    for (uint64_t i = 0; refusal == 0 && i < lives;) {
        if (address <= live[i].base && live[i].base + live[i].size <= address + length) live[i] = live[--lives];
        else i++;
    }
    cleared += refusal == 0 && inside > 0;
    setup = answer.setup;
    stage2_changed();
    ask_around(address, length);
    ask_around(near, granule);
    if (address + length > space()) return refusal == OAK_REFUSED_END;
    return cut ? refusal == OAK_REFUSED_INSIDE : refusal == 0 && answer.removed == inside;
}

static uint64_t tables_there(void) { return setup.tables + setup.second_tables; }

/* A second region, after which every answer of the machine has to be as before. A mapping whose frame lies in it is its only refusal. */
static uint64_t added, not_added;

static bool add_something(uint64_t tables) {
    oak_setup answer;
    bool inside = false;
    for (uint64_t i = 0; i < lives; i++)
        inside |= live[i].frame < (uint64_t)spare + granule * tables && (uint64_t)spare < live[i].frame + live[i].size;
    uint64_t refusal =
        oak_add(&setup, pool, WORDS(setup.tables), spare, WORDS(tables), list, setup.tables + tables, (uint64_t)spare, tables, &answer);
    setup = answer;
    if (refusal == 0) added++;
    else not_added++;
    stage2_changed();
    for (uint64_t i = 0; i < lives; i++) ask_around(live[i].base, live[i].size);
    return refusal == (inside ? OAK_REFUSED_POOL : 0);
}

static void history(uint64_t number) {
    static const uint64_t counts[] = {1, 2, 3, 4, 6, 9, 16, 512};
    uint64_t larger = number >= HISTORIES / 3 * 2, levels = larger ? 3 : 3 + number % 2, tables = counts[number / 2 % 8];
    uint64_t before = differences, unsound = 0;
    /* a third of the pools has two regions from the start, and a third gets the second one half way */
    uint64_t more = tables + MOST_SECOND > MOST_TABLES ? 0 : 1 + number % MOST_SECOND, at_once = number % 3 == 0 ? more : 0;
    granule = larger ? OAK_16_KIB : OAK_4_KIB;
    state = 1000003 * number;
    lives = 0;
    memset(pool, 0xFF, WORDS(tables) * sizeof *pool);
    memset(spare, 0xFF, sizeof spare);
    if (oak_format(levels, (uint64_t)pool, tables, at_once == 0 ? 0 : (uint64_t)spare, at_once, granule, pool, WORDS(tables), spare,
                   WORDS(at_once), list, tables + at_once, &setup) != 0)
        unsound++;
    stage2_on(levels, granule, (uint64_t)pool);
    for (uint64_t call = 0; call < CALLS; call++) {
        oak_audited counted;
        if (call == CALLS / 2 && number % 3 == 1 && more != 0 && !add_something(more)) unsound++;
        uint64_t kind = below(10);
        if (kind < 2) unmap_something();
        else if (kind == 2 && !unmap_range_something()) unsound++;
        else if (kind == 3) map_range_something();
        else if (kind > 3) map_something();
        if (oak_audit(&setup, LENT, &counted) != 0 || counted.mappings != lives || counted.tables + setup.free != tables_there()) unsound++;
        for (int i = 0; i < 4; i++) {
            uint64_t page = some_address(granule);
            ask(page + below(granule));
        }
        maps = lives > maps ? lives : maps;
    }
    for (uint64_t i = 0; i < lives; i++) ask_around(live[i].base, live[i].size);
    for (uint64_t bit = 12; bit < 64; bit++) ask(UINT64_C(1) << bit);
    ask(UINT64_MAX);
    bool good = differences == before && unsound == 0;
    test(good);
    if (!good)
        say("history %u: %u levels, %u tables of %u bytes: %u differences, %u calls refused or pools not accepted\n", number, levels, tables,
            granule, differences - before, unsound);
}

/* every size and attribute was asked in each tree, for reading and for writing */
static void all_asked(void) {
    uint64_t least = UINT64_MAX;
    for (unsigned of = 0; of < TREES; of++)
        for (unsigned size = 0; size < (of == LARGE ? 2 : 3); size++)
            for (unsigned i = 0; i < 32; i++)
                if (hits[of][size][i / 2][i % 2] < least) least = hits[of][size][i / 2][i % 2];
    say("%u histories of %u calls, up to %u mappings, %u tables; a second region added %u times, %u times refused; %u ranges mapped, %u unmapped\n",
        (uint64_t)HISTORIES, (uint64_t)CALLS, maps, (uint64_t)MOST_TABLES, added, not_added, ranges, cleared);
    say("AT: %u translated, %u not permitted, %u not mapped, %u past the space; each size and attribute at least %u times; %u differences\n",
        asked[TRANSLATED], asked[FORBIDDEN], asked[NOTHING], asked[PAST], least, differences);
    test(least > 0 && added > 0 && ranges > 0 && cleared > 0);
}

/* ---- a guest that loads, stores and fetches */

/* the guest's program: a load and a store at x1, each followed by a call */
__asm__(".text\n .balign 16384\n load_stub: ldr x0, [x1]\n hvc #0\n store_stub: str x0, [x1, #8]\n hvc #0\n .balign 16384");
extern const char load_stub[], store_stub[];

/* what it reaches, in a GiB of memory that holds nothing else: the word at the spot is the instruction HVC, the next is for the store */
#define SPOT UINT64_C(0x84000000)
#define HVC UINT64_C(0xD4000002)
#define NO_VECTORS UINT64_C(0x7000000000)
static volatile uint64_t *const spot = (uint64_t *)SPOT;

static uint64_t access_count, access_wrong;

/* One access, by the guest's kernel at EL1 or its program at EL0. It has to pass exactly when it may, and where it may not, to trap
 * there for that reason. At EL0 the call that follows is no instruction: it goes to the guest's own vectors, where nothing is mapped. */
static void access_at(uint64_t pstate, enum cause cause, uint64_t address, bool mapped, bool may) {
    struct registers guest = {.x = {[0] = 77, [1] = address}, .pstate = pstate};
    guest.pc = cause == FETCH ? address : (uint64_t)(cause == READ ? load_stub : store_stub) % granule;
    spot[0] = HVC, spot[1] = 0;
    run_guest(&guest);
    struct trap trap = why();
    bool past = pstate == AT_EL1 ? trap.cause == CALLED : trap.cause == FETCH && trap.address == NO_VECTORS + 0x400;
    bool stopped = trap.cause == cause && trap.address == address + (cause == WRITE ? 8 : 0) && trap.not_mapped == !mapped;
    bool good = (may ? past : stopped) && guest.x[0] == (may && cause == READ ? HVC : 77) && spot[1] == (may && cause == WRITE ? 77 : 0);
    access_count++;
    if (!good && access_wrong++ < 10)
        say("DIFFERENCE: access %u at %x, EL1 %u, mapped %u, may %u: trap %u at %x\n", (uint64_t)cause, address,
            (uint64_t)(pstate == AT_EL1), (uint64_t)mapped, (uint64_t)may, (uint64_t)trap.cause, trap.address);
}

static void access(enum cause cause, uint64_t address, bool mapped, bool may) {
    access_at(AT_EL1, cause, address, mapped, may);
    access_at(AT_EL0, cause, address, mapped, may);
}

/* a frame of the size that holds the spot, under the attributes, and then gone again */
static void accesses(uint64_t size, uint64_t attributes) {
    oak_mapped mapped;
    oak_unmapped unmapped;
    uint64_t base = UINT64_C(0x100000000) + size, address = base + SPOT % size;
    access_wrong += oak_map(&setup, LENT, base, SPOT - SPOT % size, size, attributes, &mapped) != 0;
    setup = mapped.setup;
    stage2_changed();
    access(READ, address, true, attributes & OAK_READ);
    access(WRITE, address, true, attributes & OAK_WRITE);
    /* the manual leaves open what a fetch from device memory does where it is not forbidden */
    if ((attributes & OAK_EXECUTE) == 0 || (attributes & OAK_DEVICE) == 0) access(FETCH, address, true, attributes & OAK_EXECUTE);
    access_wrong += oak_unmap(&setup, LENT, base, &unmapped) != 0;
    setup = unmapped.setup;
    stage2_changed();
    access(READ, address, false, false);
    access(WRITE, address, false, false);
    access(FETCH, address, false, false);
}

static void all_accesses(uint64_t levels, uint64_t of_granule) {
    oak_mapped mapped;
    granule = of_granule;
    access_wrong +=
        oak_format(levels, (uint64_t)pool, 2, (uint64_t)spare, 6, granule, pool, WORDS(2), spare, WORDS(6), list, 8, &setup) != 0;
    access_wrong += oak_map(&setup, LENT, 0, (uint64_t)load_stub, granule, OAK_READ | OAK_EXECUTE, &mapped) != 0;
    setup = mapped.setup;
    /* a guest is never given its own tables */
    access_wrong += oak_map(&setup, LENT, granule, (uint64_t)pool, granule, OAK_READ, &mapped) != OAK_REFUSED_POOL;
    access_wrong += oak_map(&setup, LENT, granule, (uint64_t)spare, granule, OAK_READ, &mapped) != OAK_REFUSED_POOL;
    stage2_on(levels, granule, (uint64_t)pool);
    WRITE_REGISTER(vbar_el1, NO_VECTORS);
    for (uint64_t i = 0; i < size_count(); i++)
        for (uint64_t attributes = 0; attributes < 16; attributes++) accesses(size_of(i), attributes);
}

/* How much of our stack was ever used: it is filled with a pattern before the first call. */
extern uint64_t stack_bottom[], stack_top[];
#define PATTERN UINT64_C(0x5A5A5A5A5A5A5A5A)

static void paint_stack(void) {
    uint64_t *here = __builtin_frame_address(0);
    for (uint64_t *place = stack_bottom; place < here - 64; place++) *(volatile uint64_t *)place = PATTERN;
}

static uint64_t stack_used(void) {
    uint64_t *place = stack_bottom;
    while (*place == PATTERN) place++;
    return 8 * (uint64_t)(stack_top - place);
}

int main(void) {
    paint_stack();
    if (!has_16_kib()) {
        say("this processor has no granule of 16 KiB at stage 2\n0 passed, 1 failed\n");
        return 1;
    }
    for (uint64_t number = 0; number < HISTORIES; number++) history(number);
    all_asked();
    all_accesses(3, OAK_4_KIB);
    all_accesses(4, OAK_4_KIB);
    all_accesses(3, OAK_16_KIB);
    say("a guest's accesses: %u, %u differences\n", access_count, access_wrong);
    test(access_wrong == 0);
    say("stack: at most %u bytes, this program's own part included\n", stack_used());
    say("%u passed, %u failed\n", passed, failed);
    return 0;
}
