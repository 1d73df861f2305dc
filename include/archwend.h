/* Archwend: moves the page tables of a guest whose memory was moved. Link libarchwend.a (x86-64 ELF).
 *
 * No pointer may be null, also where its length is 0: for an empty C++ vector, whose data() may be null, give the address of any
 * word. A length is that of memory that is really there, since lent memory that may be written is cleared to its end. Words are
 * aligned to 8 bytes, those of masks to 4. The memory that a call writes shares no byte with any other memory lent to it. Nothing
 * else is required: any numbers are taken, and what can't be done is refused.
 *
 * A level counts from the entries that map 4 KiB: an entry of level 0 maps 4 KiB, of level 1 2 MiB, of level 2 1 GiB, of level 3
 * 512 GiB and of level 4 256 TiB. The root table's entries have level 3, with five levels (cr4 bit 0x1000) level 4.
 *
 * For firmware and kernels, as tests/interface.sh measures it: besides memset nothing is undefined in the archive. A call takes
 * less than 8 KiB of stack; a walk down five levels takes 4.4. The code uses SSE2 registers: they have to be switched on, and saved
 * where a call interrupts their user. archwend_extract_individual_masks uses the red zone, the 128 bytes below the stack pointer:
 * while it runs no interrupt may be taken on its stack. All others leave it alone. Relocations are relative to the code
 * (R_X86_64_PC32, R_X86_64_PLT32), so it runs at any address. No data is written but what is lent: any number of threads may call
 * at once, each with memory of its own. */
#ifndef ARCHWEND_H
#define ARCHWEND_H

#if !defined(__x86_64__) || defined(__ILP32__) || defined(_WIN32) || defined(__CYGWIN__) || defined(__APPLE__)
#error "libarchwend.a is ELF code for x86-64 with 64-bit pointers and the System V calling convention"
#endif

#include <stddef.h>
#include <stdint.h>

#ifdef __cplusplus
extern "C" {
#endif

/* The version of this interface: it goes up with every change that a caller can see. The archive has it in a function's name, which
 * is asked for here, so that what was compiled with another version does not link. */
#define ARCHWEND_VERSION 2

/* Returns ARCHWEND_VERSION. */
uint64_t archwend_interface_2(void);

#ifdef __GNUC__
#if __has_attribute(retain) /* kept also where the linker drops what nothing uses */
static uint64_t (*const archwend_interface)(void) __attribute__((used, retain)) = archwend_interface_2;
#else
static uint64_t (*const archwend_interface)(void) __attribute__((used)) = archwend_interface_2;
#endif
#endif

/* Refusals; ARCHWEND_OK is an answer without one. The bound is 2^48; with five levels (cr4 bit 0x1000) it is 2^52. */
enum archwend_number {
    ARCHWEND_OK = 0,
    ARCHWEND_REGION = 1,            /* the region is not whole pages, is empty, has more than 512 tables, ends past the
                                       bound, or uses more than its size */
    ARCHWEND_PAGE_LENGTH = 2,       /* the page data is not 4096 bytes long */
    ARCHWEND_PAGE_GPA = 3,          /* the page's address is outside the region, or not a multiple of 4096 */
    ARCHWEND_LENGTHS = 4,           /* the image is not as long as the used part, or the output is shorter than the region */
    /* 5 is out of use. */
    ARCHWEND_CR3 = 6,               /* cr3 is not in the region */
    ARCHWEND_TABLE_OFFSET = 7,      /* the table offset is not a multiple of 4096, or moves the region out of 0 to the bound */
    ARCHWEND_RANGES = 8,            /* the ranges are more than 1024, not words in threes or not ascending, or one is empty,
                                       past the bound or over the region */
    ARCHWEND_FREE_TAIL = 9,         /* a table, or the page of a load, lies in the free tail of the region */
    ARCHWEND_SHARED_TABLE = 10,     /* a table is reached twice */
    ARCHWEND_INTO_MOVED = 11,       /* an entry points outside the old region but into the moved one */
    ARCHWEND_UNALIGNED_OFFSET = 12, /* an offset is not a multiple of the size that the entry maps */
    ARCHWEND_OUT_OF_BOUNDS = 13,    /* a leaf would move out of 0 to the bound */
    ARCHWEND_SAME_ADDRESS = 14,     /* two leaves would move to one address */
    ARCHWEND_NO_ROOM = 15,          /* the scratch has no room for another moved leaf, or a list is too short */
    ARCHWEND_LARGE_IN_THE_WAY = 16, /* a large leaf stands in the way of a moved leaf */
    ARCHWEND_WAY_OUTSIDE = 17,      /* the way to a moved leaf leaves the moved region */
    ARCHWEND_OCCUPIED = 18,         /* a different entry stands where a moved leaf goes */
    ARCHWEND_NO_FREE_TABLE = 19,    /* the region has no free table left */
    ARCHWEND_ENTRY = 20,            /* the address has a bit that the entry can't hold, the level is above 4, or above 2
                                       for a leaf, or the kind of entry is unknown */
    ARCHWEND_NOT_COMPARABLE = 34    /* two images differ in length, are not whole pages, or are longer than 2097152 bytes */
};

/* The words of a build's report. After a refusal the counts are 0; after acceptance the place is. A place is that of an entry for
 * 9 to 15, its address the first that the entry maps; for 16 to 19 the address is the moved leaf's new one. */
enum archwend_report {
    ARCHWEND_NUMBER = 0,        /* ARCHWEND_OK or the refusal */
    ARCHWEND_USED = 1,          /* bytes of tables in the output */
    ARCHWEND_MOVED = 2,         /* leaves moved, merged ones included */
    ARCHWEND_MERGED = 3,        /* leaves that came to stand on an identical one */
    ARCHWEND_REACHED = 4,       /* tables reached, the root included */
    ARCHWEND_PLACE_ADDRESS = 5, /* where it was refused: an address, */
    ARCHWEND_PLACE_LEVEL = 6,   /* a level (of a root in the free tail 4, or 5 with five levels), */
    ARCHWEND_PLACE_OFFSET = 7   /* and for 12 and 13 the offset */
};

/* Builds the moved tables. The report's first word is the answer. */
void archwend_build(
    const uint8_t *image,   /* the tables as they are: exactly `used` bytes; only read */
    size_t image_len,       /* bytes */
    uint8_t *output,        /* the moved tables, then zeros; all zeros after a refusal */
    size_t output_len,      /* bytes, at least `size` */
    uint64_t *scratch,      /* room for one moved leaf per three words; left zero */
    size_t scratch_len,     /* words */
    const uint64_t *ranges, /* words in threes: first, last (included), offset in two's complement; ascending, at most 1,024 */
    size_t ranges_len,      /* words */
    uint64_t gpa,           /* where the region starts */
    uint64_t size,          /* its bytes, at most 2 MiB */
    uint64_t used,          /* its bytes that hold tables */
    uint64_t cr3,           /* the root table's address; the low 12 bits are ignored */
    uint64_t cr4,           /* only bit 0x1000 is looked at: five levels */
    uint64_t table_offset,  /* how far the region itself moves, in two's complement */
    uint64_t report[8]      /* see enum archwend_report */
);

/* Loads one page into the image. Returns ARCHWEND_OK or the refusal; a refusal changes nothing. */
uint64_t archwend_set_page_data(
    uint8_t *image,      /* exactly `used` bytes */
    size_t image_len,    /* bytes */
    uint64_t gpa,        /* the region, as above */
    uint64_t size,
    uint64_t used,
    uint64_t page_gpa,   /* the page's address before the move */
    const uint8_t *data, /* the page */
    size_t data_len,     /* 4096, or 0: then nothing is changed */
    uint64_t cr4         /* as above, for the region's bound */
);

/* The words of a comparison's answer. After a refusal, and where nothing differs, all but the first are 0. */
enum archwend_compared {
    ARCHWEND_COMPARED_NUMBER = 0, /* ARCHWEND_OK or the refusal */
    ARCHWEND_COMPARED_COUNT = 1,  /* entries that differ */
    ARCHWEND_COMPARED_START = 2,  /* the first page that differs: where it starts in the newer image, */
    ARCHWEND_COMPARED_SIZE = 3    /* and its bytes, 4096 */
};

/* Holds two images against each other, entry by entry. The answer's first word is the answer. */
void archwend_compare(
    const uint8_t *older, /* only read */
    size_t older_len,     /* bytes: whole pages, at most 2 MiB */
    const uint8_t *newer, /* only read; it may be the older one */
    size_t newer_len,     /* bytes, as many */
    uint64_t *list,       /* words in fours: table, entry, older value, newer value; ascending, then zeros; all zeros after a
                             refusal */
    size_t list_len,      /* words; half as many as an image has bytes are always enough */
    uint64_t answer[4]    /* see enum archwend_compared */
);

/* One page table entry is a word. */

/* The kinds of a fresh entry; a leaf's is its level. */
enum archwend_kind {
    ARCHWEND_LEAF_4K = 0, /* present, writable, accessed, dirty */
    ARCHWEND_LEAF_2M = 1, /* also large */
    ARCHWEND_LEAF_1G = 2, /* also large */
    ARCHWEND_TABLE = 3    /* points to a table: present, writable, accessed */
};

/* Makes the entry a fresh one. Returns ARCHWEND_OK, or ARCHWEND_ENTRY and the entry stays as it came. */
uint64_t archwend_set_entry(
    uint64_t *entry,
    uint64_t kind, /* see enum archwend_kind */
    uint64_t addr  /* a multiple of the size mapped, 4096 for a table, and below 2^52 */
);

/* Sets a table entry's address, bits 51 to 12. Returns ARCHWEND_OK, or ARCHWEND_ENTRY and the entry stays as it came. */
uint64_t archwend_set_addr(
    uint64_t *entry,
    uint64_t addr /* no bit outside 51 to 12 */
);

/* Reads a present table entry's address. Returns 1, or 0 where the entry is absent. */
uint64_t archwend_gpa(
    uint64_t entry,
    uint64_t *gpa /* the address, or 0 */
);

/* A leaf's address is bits 51 to 12 at level 0, 51 to 21 at level 1, 51 to 30 at level 2; the bits below, among them bit 12 of a
 * large leaf, which is of the memory type (PAT), are no part of it. */

/* Sets a leaf's address. Returns ARCHWEND_OK, or ARCHWEND_ENTRY and the entry stays as it came. */
uint64_t archwend_set_leaf_addr(
    uint64_t *entry,
    uint64_t level, /* 0 to 2 */
    uint64_t addr   /* a multiple of the size mapped, below 2^52 */
);

/* Reads a present leaf's address. Returns 1, or 0 where the entry is absent, or ARCHWEND_ENTRY for a level above 2. */
uint64_t archwend_leaf_gpa(
    uint64_t entry,
    uint64_t level, /* 0 to 2 */
    uint64_t *gpa   /* the address, or 0 */
);

/* Whether the entry is present (bit 0): 1 or 0. */
uint64_t archwend_is_present(uint64_t entry);

/* Whether the entry is large (bit 7): 1 or 0. */
uint64_t archwend_is_large_page(uint64_t entry);

/* Makes all bits of the entry 0. */
void archwend_clear(uint64_t *entry);

/* How many bytes one entry of a level maps. Returns ARCHWEND_OK, or ARCHWEND_ENTRY for a level above 4. */
uint64_t archwend_mapping_size(
    uint64_t level,
    uint64_t *size /* bytes, or 0 */
);

/* Which entry of a level's table maps an address. Returns ARCHWEND_OK, or ARCHWEND_ENTRY for a level above 4. */
uint64_t archwend_get_amd64_pte_index(
    uint64_t gva,
    uint64_t level,
    uint64_t *index /* 0 to 511 */
);

/* Which table of a region holds an address. Returns 1, or 0 where the address is outside. No rule of regions is asked. */
uint64_t archwend_calculate_page_table_index(
    uint64_t gpa,  /* the region, as above; `used` is not looked at */
    uint64_t size,
    uint64_t used,
    uint64_t address,
    uint64_t *index /* the table's number, or 0 */
);

/* Splits a compatibility mask into its single bits. Returns how many there are. */
uint64_t archwend_extract_individual_masks(
    uint32_t mask,
    uint32_t masks[32] /* the single bits, lowest first, then zeros */
);

#ifdef __cplusplus
}
#endif

#endif
