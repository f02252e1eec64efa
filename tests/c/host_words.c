/* The C surface against a model of its own.
 *
 * The model is written from the rules of the entry words alone, bit by bit, and shares nothing with the library: it finds the meaning
 * of a word by trying all sixteen attributes. Fixed words and limits come first, then numbers from a fixed generator.
 * The last line is 'N passed, M failed'; a run over many numbers counts as one test. */
#include <inttypes.h>
#include <stdbool.h>
#include <stddef.h>
#include <stdio.h>

#include "oakabut.h"

#define COUNT(a) (sizeof(a) / sizeof((a)[0]))
#define LIMIT (UINT64_C(1) << 48)
#define MOST UINT64_MAX

/* the sizes of both granules: pages of 4 KiB and 16 KiB, and blocks of 2 MiB, 1 GiB and 32 MiB */
enum { SIZES = 5 };
static const uint64_t sizes[SIZES] = {UINT64_C(4096), UINT64_C(2097152), UINT64_C(1073741824), UINT64_C(16384), UINT64_C(33554432)};
static unsigned long passed, failed;

/* ---- the model */

static uint64_t bit(unsigned k) { return UINT64_C(1) << k; }

static bool is_size(uint64_t size) {
    return size == bit(12) || size == bit(21) || size == bit(30) || size == bit(14) || size == bit(25);
}

static uint64_t model_attributes(uint64_t attributes) {
    uint64_t word = bit(10);
    if (attributes & 1) word += bit(6);
    if (attributes & 2) word += bit(7);
    if (!(attributes & 4)) word += bit(54);
    if (!(attributes & 8)) word += bit(2) + bit(3) + bit(4) + bit(5) + bit(8) + bit(9);
    return word;
}

static bool is_page(uint64_t size) { return size == bit(12) || size == bit(14); }

static uint64_t model_type(uint64_t size) { return is_page(size) ? 3 : 1; }

/* base + size is above 2^48, without a sum that could wrap */
static bool past_end(uint64_t base, uint64_t size) { return base > LIMIT || size > LIMIT - base; }

static uint64_t model_word(uint64_t base, uint64_t size, uint64_t attributes) {
    if (!is_size(size)) return 2;
    if (attributes > 15) return 3;
    if (past_end(base, size)) return 4;
    if (base % size != 0) return 5;
    return base + model_type(size) + model_attributes(attributes);
}

static uint64_t model_meaning(uint64_t word, uint64_t size) {
    if (!is_size(size)) return 2;
    for (uint64_t a = 0; a < 16; a++) {
        uint64_t rest = model_type(size) + model_attributes(a);
        if (word < rest) continue;
        uint64_t base = word - rest;
        if (!past_end(base, size) && base % size == 0) return base + 16 + a;
    }
    return 8;
}

/* ---- tests */

static void equal(const char *what, uint64_t got, uint64_t want) {
    if (got == want) {
        passed++;
        return;
    }
    failed++;
    printf("%s: got %#" PRIx64 ", want %#" PRIx64 "\n", what, got, want);
}

static void frame(uint64_t base, uint64_t size, uint64_t attributes, uint64_t want) {
    char what[120];
    snprintf(what, sizeof what, "word of base %#" PRIx64 " size %#" PRIx64 " attributes %#" PRIx64, base, size, attributes);
    equal(what, oak_frame_word(base, size, attributes), want);
}

static void meaning(uint64_t word, uint64_t size, uint64_t want) {
    char what[120];
    snprintf(what, sizeof what, "meaning of %#" PRIx64 " at size %#" PRIx64, word, size);
    equal(what, oak_word_meaning(word, size), want);
}

static void fixed_words(void) {
    frame(0x80000000, 4096, 3, UINT64_C(0x00400000800007FF));
    frame(0x80001000, 4096, 5, 0x8000177F);
    frame(0x80200000, OAK_2_MIB, 3, UINT64_C(0x00400000802007FD));
    equal("low bits of a device page", oak_frame_word(0x80000000, 4096, 11) & 0xFFF, 0x4C3);
    frame(0x09000000, 4096, OAK_READ | OAK_WRITE | OAK_DEVICE, UINT64_C(0x00400000090004C3));
    frame(0, 4096, 0, UINT64_C(0x004000000000073F));
    frame(0, OAK_1_GIB, 15, 0x4C1);
    frame(LIMIT - 4096, 4096, 7, UINT64_C(0x0000FFFFFFFFF7FF));
    frame(LIMIT - OAK_1_GIB, OAK_1_GIB, 15, UINT64_C(0x0000FFFFC00004C1));
    meaning(UINT64_C(0x00400000800007FF), 4096, 0x80000013);
    meaning(0x8000177F, 4096, 0x80001015);
    meaning(UINT64_C(0x00400000802007FD), OAK_2_MIB, 0x80200013);
    meaning(UINT64_C(0x00400000802007FD), OAK_1_GIB, 8);
    meaning(UINT64_C(0x00400000802007FD), 4096, 8);
    meaning(UINT64_C(0x00400000800007FF), OAK_2_MIB, 8);
    /* 16 KiB and 32 MiB: the words of 4 KiB and of 2 MiB, where the base is a multiple of the larger size too */
    frame(0x80000000, OAK_16_KIB, 3, UINT64_C(0x00400000800007FF));
    frame(0x80004000, OAK_16_KIB, 5, 0x8000477F);
    frame(0x82000000, OAK_32_MIB, 3, UINT64_C(0x00400000820007FD));
    frame(LIMIT - OAK_16_KIB, OAK_16_KIB, 7, UINT64_C(0x0000FFFFFFFFC7FF));
    frame(LIMIT - OAK_32_MIB, OAK_32_MIB, 15, UINT64_C(0x0000FFFFFE0004C1));
    meaning(0x8000477F, OAK_16_KIB, 0x80004015);
    meaning(0x8000477F, OAK_4_KIB, 0x80004015);
    meaning(0x8000177F, OAK_16_KIB, 8);
    meaning(0x8000277F, OAK_16_KIB, 8);
    meaning(UINT64_C(0x00400000820007FD), OAK_32_MIB, 0x82000013);
    meaning(UINT64_C(0x00400000820007FD), OAK_2_MIB, 0x82000013);
    meaning(UINT64_C(0x00400000820007FD), OAK_1_GIB, 8);
    meaning(UINT64_C(0x00400000802007FD), OAK_32_MIB, 8);
    meaning(UINT64_C(0x00400000820007FD), OAK_16_KIB, 8);
    meaning(UINT64_C(0x00400000800007FF), OAK_32_MIB, 8);
    equal("base of a meaning", OAK_MEANING_BASE(oak_word_meaning(0x8000177F, 4096)), 0x80001000);
    equal("attributes of a meaning", OAK_MEANING_ATTRIBUTES(oak_word_meaning(0x8000177F, 4096)), OAK_READ | OAK_EXECUTE);
}

/* each refusal, and that the earlier one is given where two apply */
static void refusals(void) {
    static const uint64_t odd[] = {
        0, 1, 15, 16, 4095, 4097, 8192, 16383, 16385, 0x8000, 0x10000, 0x1FFFFF, 0x200001, 0x400000, 0x1FFFFFF, 0x2000001, 0x4000000,
        0x3FFFFFFF, 0x40000001, 0x80000000, UINT64_C(0x1000000000), UINT64_C(0x8000000000), LIMIT, UINT64_C(1) << 63, MOST,
    };
    for (size_t i = 0; i < COUNT(odd); i++) {
        frame(0x80000000, odd[i], 3, OAK_REFUSED_SIZE);
        frame(MOST, odd[i], MOST, OAK_REFUSED_SIZE);
        meaning(0x8000177F, odd[i], OAK_REFUSED_SIZE);
        meaning(0, odd[i], OAK_REFUSED_SIZE);
    }
    for (size_t i = 0; i < SIZES; i++) {
        uint64_t s = sizes[i];
        frame(0, s, 16, OAK_REFUSED_ATTRIBUTES);
        frame(0, s, UINT64_C(1) << 32, OAK_REFUSED_ATTRIBUTES);
        frame(MOST, s, MOST, OAK_REFUSED_ATTRIBUTES);
        frame(0, s, 15, model_word(0, s, 15));
        frame(LIMIT - s, s, 15, model_word(LIMIT - s, s, 15));
        frame(LIMIT - s + 1, s, 15, OAK_REFUSED_END);
        frame(LIMIT - 1, s, 3, OAK_REFUSED_END);
        frame(LIMIT, s, 3, OAK_REFUSED_END);
        frame(LIMIT + s, s, 3, OAK_REFUSED_END);
        frame(MOST, s, 3, OAK_REFUSED_END);
        frame(0 - s, s, 3, OAK_REFUSED_END);
        frame(0 - s + 1, s, 3, OAK_REFUSED_END);
        frame(0 - 2 * s, s, 3, OAK_REFUSED_END);
        frame(1, s, 3, OAK_REFUSED_BASE);
        frame(s - 1, s, 3, OAK_REFUSED_BASE);
        frame(s / 2, s, 3, OAK_REFUSED_BASE);
        frame(LIMIT - s - 1, s, 3, OAK_REFUSED_BASE);
        meaning(0, s, OAK_REFUSED_DAMAGED);
        meaning(MOST, s, OAK_REFUSED_DAMAGED);
        meaning(UINT64_C(0x40001003), s, OAK_REFUSED_DAMAGED);
        meaning(model_word(0, s, 3) + LIMIT, s, OAK_REFUSED_DAMAGED);
    }
    frame(4096, OAK_2_MIB, 3, OAK_REFUSED_BASE);
    frame(OAK_2_MIB, OAK_1_GIB, 3, OAK_REFUSED_BASE);
    frame(4096, OAK_16_KIB, 3, OAK_REFUSED_BASE);
    frame(8192, OAK_16_KIB, 3, OAK_REFUSED_BASE);
    frame(OAK_2_MIB, OAK_32_MIB, 3, OAK_REFUSED_BASE);
    frame(OAK_16_KIB, OAK_32_MIB, 3, OAK_REFUSED_BASE);
}

/* the device words from before request 4, Device-nGnRE: bits 5:2 = 0001 */
static void old_device_words(void) {
    for (size_t i = 0; i < SIZES; i++)
        for (uint64_t a = 8; a < 16; a++) {
            uint64_t word = oak_frame_word(3 * sizes[2], sizes[i], a);
            meaning(word, sizes[i], 3 * sizes[2] + 16 + a);
            meaning(word + bit(2), sizes[i], OAK_REFUSED_DAMAGED);
        }
}

/* all sixteen attributes at the five sizes: word, meaning, each bit changed alone, and no word of a page at the size of a block, nor the
 * other way round */
static void round_trips(void) {
    for (size_t i = 0; i < SIZES; i++) {
        uint64_t bases[] = {0, sizes[i], 7 * sizes[i], LIMIT / 2, LIMIT - sizes[i]};
        for (uint64_t a = 0; a < 16; a++) {
            for (size_t j = 0; j < COUNT(bases); j++) {
                uint64_t word = oak_frame_word(bases[j], sizes[i], a);
                frame(bases[j], sizes[i], a, model_word(bases[j], sizes[i], a));
                meaning(word, sizes[i], bases[j] + 16 + a);
            }
            for (size_t j = 0; j < SIZES; j++)
                meaning(oak_frame_word(0, sizes[i], a), sizes[j], is_page(sizes[i]) == is_page(sizes[j]) ? 16 + a : 8);
            for (unsigned k = 0; k < 64; k++) {
                uint64_t word = oak_frame_word(sizes[i], sizes[i], a) ^ bit(k);
                meaning(word, sizes[i], model_meaning(word, sizes[i]));
            }
        }
    }
}

static uint64_t state = 1;

static uint64_t random64(void) {
    uint64_t z = (state += UINT64_C(0x9E3779B97F4A7C15));
    z = (z ^ (z >> 30)) * UINT64_C(0xBF58476D1CE4E5B9);
    z = (z ^ (z >> 27)) * UINT64_C(0x94D049BB133111EB);
    return z ^ (z >> 31);
}

static uint64_t random_size(void) {
    uint64_t r = random64() % 16;
    return r == 0 ? random64() : r == 1 ? bit((unsigned)(random64() % 64)) : sizes[r % SIZES];
}

static uint64_t random_base(uint64_t size) {
    switch (random64() % 8) {
    case 0: return random64();
    case 1: return random64() % LIMIT;
    case 2: return LIMIT - size + random64() % 3 - 1;
    case 3: return 0 - size + random64() % 3 - 1;
    default: return is_size(size) ? random64() % (LIMIT / size) * size : random64() % LIMIT;
    }
}

static uint64_t random_attributes(void) {
    uint64_t r = random64();
    return r % 16 == 0 ? random64() : r / 16 % 17;
}

/* a frame's word with up to two bits changed, a table's word, or any number at all */
static uint64_t random_word(uint64_t size) {
    uint64_t r = random64() % 8;
    if (r == 0) return random64();
    if (r == 1) return random64() % (LIMIT / 4096) * 4096 + 3;
    uint64_t of = is_size(size) && r < 6 ? size : sizes[random64() % SIZES];
    uint64_t word = model_word(random64() % (LIMIT / of) * of, of, random64() % 16);
    for (uint64_t changes = random64() % 3; changes > 0; changes--) word ^= bit((unsigned)(random64() % 64));
    return word;
}

/* one test: every answer is the model's, and what is no refusal goes back */
static void many(const char *what, bool (*one)(void), unsigned long times) {
    unsigned long wrong = 0;
    for (unsigned long i = 0; i < times; i++) wrong += !one();
    equal(what, wrong, 0);
}

static bool one_frame(void) {
    uint64_t size = random_size(), base = random_base(size), a = random_attributes();
    uint64_t got = oak_frame_word(base, size, a), want = model_word(base, size, a);
    if (got == want && (got < 16 || oak_word_meaning(got, size) == base + 16 + a)) return true;
    printf("word of base %#" PRIx64 " size %#" PRIx64 " attributes %#" PRIx64 ": got %#" PRIx64 "\n", base, size, a, got);
    return false;
}

static bool one_word(void) {
    uint64_t size = random_size(), word = random_word(size);
    uint64_t got = oak_word_meaning(word, size), want = model_meaning(word, size);
    if (got == want && (got < 16 || oak_frame_word(OAK_MEANING_BASE(got), size, OAK_MEANING_ATTRIBUTES(got)) == word)) return true;
    printf("meaning of %#" PRIx64 " at size %#" PRIx64 ": got %#" PRIx64 "\n", word, size, got);
    return false;
}

int main(void) {
    fixed_words();
    refusals();
    old_device_words();
    round_trips();
    many("frames from the generator", one_frame, 200000);
    many("words from the generator", one_word, 200000);
    printf("%lu passed, %lu failed\n", passed, failed);
    return failed != 0;
}
