/* What the header has beside the calls: the version, and each refusal in words. The last line is 'N passed, M failed'. */
#include "oakabut.h"
#include <stdio.h>
#include <string.h>

static unsigned long passed, failed;

static void test(const char *what, uint64_t number, int good) {
    if (good) {
        passed++;
        return;
    }
    failed++;
    printf("%s %u: wrong\n", what, (unsigned)number);
}

int main(void) {
    static const struct {
        uint64_t number;
        const char *word; /* one that its text has */
    } refusals[] = {
        {OAK_REFUSED_SETUP, "length"},   {OAK_REFUSED_SIZE, "size"},      {OAK_REFUSED_ATTRIBUTES, "attributes"},
        {OAK_REFUSED_END, "past"},       {OAK_REFUSED_BASE, "aligned"},   {OAK_REFUSED_MAPPED, "something is mapped"},
        {OAK_REFUSED_TABLES, "too few"}, {OAK_REFUSED_DAMAGED, "damaged"}, {OAK_REFUSED_EMPTY, "nothing is mapped"},
        {OAK_REFUSED_INSIDE, "another"}, {OAK_REFUSED_POOL, "shares"},
    };
    const size_t count = sizeof refusals / sizeof *refusals;
    const char *none = oak_refusal_text(UINT64_MAX);
    for (size_t i = 0; i < count; i++) {
        const char *text = oak_refusal_text(refusals[i].number);
        int good = strstr(text, refusals[i].word) != NULL && strcmp(text, none) != 0;
        for (size_t j = 0; j < i; j++) good = good && strcmp(text, oak_refusal_text(refusals[j].number)) != 0;
        test("refusal", refusals[i].number, good);
    }
    test("refusal", 0, strcmp(oak_refusal_text(0), "not refused") == 0);
    /* every other number has one text; 12 to 15 are for calls to come */
    for (uint64_t number = OAK_REFUSALS; number < 64; number++) test("refusal", number, oak_refusal_text(number) == none);
    test("version", 0, strlen(OAK_VERSION) >= 5 && strspn(OAK_VERSION, "0123456789.") == strlen(OAK_VERSION));
    printf("%lu passed, %lu failed\n", passed, failed);
    return failed != 0;
}
