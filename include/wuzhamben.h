/* The checker's C functions. Link libwalk.a for the first, libffi.a for the next two, and libreport_ffi.a for the last;
 * `scripts/archives` makes all three, in target/staticlib/. A slice is a pointer and a length, in elements; slices that are written overlap no other. Every call is
 * safe with every content and every length, and always returns. docs/RULES.md has the rules, docs/FORMATS.md what to do about a fault
 * or a refusal. */
#ifndef WUZHAMBEN_H
#define WUZHAMBEN_H

#include <stddef.h>
#include <stdint.h>

#ifdef __cplusplus
extern "C" {
#endif

/* An answer is a value of 32 bits, WUZHAMBEN_FAULT plus a fault's status code, or WUZHAMBEN_REFUSAL plus the number of a refusal.
 * WUZHAMBEN_NO_CALL says that the words handed over are no operation or no registers; nothing was done. */
#define WUZHAMBEN_FAULT UINT64_C(0x100000000)
#define WUZHAMBEN_REFUSAL UINT64_C(0x200000000)
#define WUZHAMBEN_NO_CALL UINT64_C(0x300000000)

/* The faults: short-descriptor status codes. */
enum {
    WUZHAMBEN_ALIGNMENT = 0x1,
    WUZHAMBEN_NO_MAPPING_1 = 0x5,         /* level one */
    WUZHAMBEN_NO_MAPPING_2 = 0x7,         /* level two */
    WUZHAMBEN_ACCESS_OUTSIDE = 0x8,       /* bytes not in memory */
    WUZHAMBEN_DOMAIN_SECTION = 0x9,       /* the field of the entry's domain is 0 */
    WUZHAMBEN_DOMAIN_PAGE = 0xb,          /* the same */
    WUZHAMBEN_WALK_OUTSIDE_1 = 0xc,       /* level-one word not in memory */
    WUZHAMBEN_PERMISSION_SECTION = 0xd,   /* AP, or XN at a fetch */
    WUZHAMBEN_WALK_OUTSIDE_2 = 0xe,       /* level-two word not in memory */
    WUZHAMBEN_PERMISSION_PAGE = 0xf       /* the same */
};

/* The kinds of operation: the first of an operation's four words. The others are its fields a, b and c. */
enum {
    WUZHAMBEN_READ,    /* a address, b size 1, 2 or 4 */
    WUZHAMBEN_WRITE,   /* a address, b size, c value */
    WUZHAMBEN_ROOT,    /* a the new root; refused (20) while the context is not 0 */
    WUZHAMBEN_ASID,    /* a the new context */
    WUZHAMBEN_MODE,    /* a the new mode, 0 kernel or 1 user */
    WUZHAMBEN_ALL,     /* flushes everything */
    WUZHAMBEN_ADDR,    /* flushes the page of a in every context, and its global entry */
    WUZHAMBEN_CTX,     /* flushes context a, but no global entry */
    WUZHAMBEN_ADDRCTX, /* flushes the page of a in context b, and its global entry whatever b is */
    WUZHAMBEN_FETCH,   /* a address: four bytes, where reading is allowed and XN is clear */
    WUZHAMBEN_DOMAIN   /* a the new domain register */
};

/* The domain register has a field of two bits for each of sixteen domains, that of domain d in bits 2d + 1..2d. An access goes by the field
 * of its entry's domain: 0 is a domain fault, 1 applies AP and XN, 3 skips both. A field of 2 is refused: 17 in the a of
 * WUZHAMBEN_DOMAIN, 14 in the registers handed over. No TLB remembers the register, so changing it makes no page stale. */

/* The walk of one virtual address through the tables at `root` in an image of 4,096 to 16,777,216 bytes (a multiple of 4,096). The
 * value is the entry's track word: frame in bits 31..12, AP in bits 11..9, bit 8 set for a section, bit 7 set where nG is clear (the
 * entry is global), bit 6 set where XN is set, the domain (bits 8..5 of the level-one word) in bits 5..2, bit 1 set. */
uint64_t walk_image(const uint8_t *image, size_t image_length, uint32_t root, uint32_t address);

/* A start from `memory`, which is only read. It empties and notes `track`, which has 1,024 words for each of 1 to 256 contexts and 1,024
 * more for the global entries, and leaves root, context, mode and the domain register, 0x55555555, in the four words of `registers`. The
 * number of contexts is told by `track_length` alone: track_length / 1024 - 1. A refused start leaves zero registers and the track as it
 * was. */
uint64_t machine_start(const uint8_t *memory, size_t memory_length, uint32_t *track, size_t track_length, uint32_t root,
                       uint32_t *registers, size_t registers_length);

/* One operation of four words, with the registers that the call before returned and the memory and track that it left, of the same
 * lengths. All three hold afterwards what the operation left; a refused one changes none of them. */
uint64_t machine_step(const uint32_t *operation, size_t operation_length, uint32_t *registers, size_t registers_length,
                      uint8_t *memory, size_t memory_length, uint32_t *track, size_t track_length);

/* The whole report of an image file with the bytes of `image` and of a list with the bytes of `list`: what the program prints. Returned is how long it
 * is. `out` begins with the report and is otherwise as it was; `image` and `track` hold memory and track after the last operation. Where `out` has
 * less than WUZHAMBEN_REPORT_LIMIT bytes, or `track` other than WUZHAMBEN_REPORT_TRACK words, nothing is done, and WUZHAMBEN_NO_CALL is returned, or
 * WUZHAMBEN_NO_CALL + 1. */
#define WUZHAMBEN_REPORT_LIMIT 262272
#define WUZHAMBEN_REPORT_TRACK 9216
uint64_t list_report(uint8_t *image, size_t image_length, const uint8_t *list, size_t list_length, uint32_t *track,
                     size_t track_length, uint8_t *out, size_t out_length);

#ifdef __cplusplus
}
#endif

#endif
