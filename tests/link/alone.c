/* A program without a C library: it has what include/oakabut.h says that the archive wants of its host, and nothing else. It makes each call once
 * and ends with the number of the first that answers wrongly, or with 0. LACKS_MEMSET and LACKS_MEMCPY leave one of the two out. */
#include "oakabut.h"

#ifndef LACKS_MEMSET
void *memset(void *to, int byte, size_t bytes);
void *memset(void *to, int byte, size_t bytes) {
    volatile unsigned char *at = to; /* so that the compiler does not make a memset of it */
    for (size_t i = 0; i < bytes; i++) at[i] = (unsigned char)byte;
    return to;
}
#endif

#ifndef LACKS_MEMCPY
void *memcpy(void *to, const void *from, size_t bytes);
void *memcpy(void *to, const void *from, size_t bytes) {
    volatile unsigned char *at = to;
    for (size_t i = 0; i < bytes; i++) at[i] = ((const unsigned char *)from)[i];
    return to;
}
#endif

_Noreturn static void leave(uint64_t status) {
#ifdef __aarch64__
    register uint64_t call __asm__("x8") = 93, first __asm__("x0") = status;
    __asm__ volatile("svc #0" : : "r"(call), "r"(first) : "memory");
#else
    __asm__ volatile("syscall" : : "a"(UINT64_C(60)), "D"(status) : "rcx", "r11", "memory");
#endif
    for (;;) continue;
}

static uint64_t words[4 * 512], spare[2 * 512], places[4], entries[4];
static uint32_t list[4 + 2];
#define ONE words, 4 * 512, OAK_NO_WORDS, 0, list, 4
#define TWO words, 4 * 512, spare, 2 * 512, list, 6

static uint64_t first_fault(void) {
    oak_setup setup, grown;
    oak_mapped mapped;
    oak_unmapped unmapped;
    oak_found found;
    oak_audited audited;
    oak_listed listed;
    if (oak_word_meaning(oak_frame_word(0x80000000, OAK_4_KIB, OAK_READ), OAK_4_KIB) != 0x80000000 + 16 + OAK_READ) return 1;
    if (oak_format(3, 0x40000000, 4, 0, 0, OAK_4_KIB, ONE, &setup) != 0) return 2;
    if (oak_map(&setup, ONE, 0, 0x80000000, OAK_4_KIB, OAK_READ, &mapped) != 0 || mapped.taken != 2) return 3;
    if (oak_add(&mapped.setup, TWO, 0x50000000, 2, &grown) != 0) return 4;
    if (oak_map(&grown, TWO, 0x40000000, 0x80001000, OAK_4_KIB, OAK_READ, &mapped) != 0 || mapped.taken != 2) return 5;
    if (oak_query(&mapped.setup, TWO, 0x40000123, &found) != 0 || found.frame != 0x80001000) return 6;
    if (oak_audit(&mapped.setup, TWO, &audited) != 0 || audited.tables != 5 || audited.mappings != 2) return 7;
    if (oak_list(&mapped.setup, TWO, 0, places, 4, entries, 4, &listed) != 0 || listed.written != 2) return 8;
    if (oak_unmap(&mapped.setup, TWO, 0, &unmapped) != 0 || unmapped.given != 2) return 9;
    return 0;
}

#ifdef __x86_64__
__attribute__((force_align_arg_pointer)) /* nobody called this: the stack is aligned as no function finds it */
#endif
_Noreturn void _start(void);
_Noreturn void _start(void) { leave(first_fault()); }
