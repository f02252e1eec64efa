/* README.md shows this program. */
#include "oakabut.h"
#include <stdio.h>

static uint64_t words[4 * 512]; /* four tables, which stand at 0x40000000 for the machine */
static uint64_t spare[2 * 512]; /* memory that is found later, at 0x50000000 */
static uint32_t list[4 + 2];    /* the free ones among them */

int main(void) {
    oak_pool pool = OAK_POOL(words, 4 * 512, list, 4);
    oak_mapped mapped;
    oak_found found;
    int passed = 0;

    /* three levels of 4 KiB tables: a space of 2^39 bytes; one region of tables, so there is no second one */
    passed += oak_pool_format(&pool, 3, 0x40000000, 4, 0, 0, OAK_4_KIB) == 0;

    /* a page at address 0, which takes two tables */
    passed += oak_pool_map(&pool, 0, 0x80000000, OAK_4_KIB, OAK_READ, &mapped) == 0 && mapped.taken == 2;

    passed += oak_pool_query(&pool, 0x123, &found) == 0 && found.frame == 0x80000000;
    passed += oak_pool_query(&pool, 0x201000, &found) == OAK_REFUSED_EMPTY; /* nothing is mapped there */
    passed += found.hole_base == 0x200000 && found.hole_size == OAK_2_MIB;  /* and so much around it is free */

    /* a page far away needs two tables more, and one is free */
    uint64_t refusal = oak_pool_map(&pool, 0x40000000, 0x80001000, OAK_4_KIB, OAK_READ, NULL);
    passed += refusal == OAK_REFUSED_TABLES;
    printf("refusal %u: %s\n", (unsigned)refusal, oak_refusal_text(refusal)); /* refusal 7: too few tables are free */

    /* two tables in spare memory, and room for them in the list */
    passed += oak_pool_add(&pool, spare, 2 * 512, list, 6, 0x50000000, 2) == 0;
    passed += oak_pool_map(&pool, 0x40000000, 0x80001000, OAK_4_KIB, OAK_READ, NULL) == 0;

    printf("%d passed, %d failed\n", passed, 8 - passed);
    return passed != 8;
}
