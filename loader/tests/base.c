/* Over include/archwend.h: builds the specification's base example, where the 2 MiB page at 0x200000 moves up by 2 MiB; with five
 * levels it moves up by 2^48. Then what the build changed, the bounds of a region, entries alone, leaves, and levels. */
#include "archwend.h"
#include <stdio.h>
#include <string.h>

#define LIMIT 0x1000000000000u       /* 2^48 */
#define WIDE_LIMIT 0x10000000000000u /* 2^52 */

static const uint64_t gpa = 0x100000, size = 0x8000;
static uint64_t page[4][512], image[4][512], output[8][512], expected[8][512], scratch[3], report[8];

static void fill(int count) {
    memset(page, 0, sizeof page);
    for (int i = 0; i + 1 < count; i++)
        page[i][0] = gpa + 4096 * (uint64_t)(i + 1) + 0x23;
    page[count - 1][1] = 0x2000e3;
    memset(expected, 0, sizeof expected);
    memcpy(expected, page, sizeof page);
}

static uint64_t load(uint64_t at, uint64_t used, int i, size_t len, uint64_t cr4) {
    return archwend_set_page_data((uint8_t *)image, used, at, size, used, at + 4096 * (uint64_t)i, (const uint8_t *)page[i],
                                  len, cr4);
}

/* The page moves by the offset, in a region of so many bytes. */
static uint64_t build(uint64_t offset, uint64_t bytes, uint64_t used, uint64_t cr3, uint64_t cr4, size_t room) {
    const uint64_t ranges[3] = {0x200000, 0x3fffff, offset};

    memset(output, 0xa5, sizeof output);
    archwend_build((const uint8_t *)image, used, (uint8_t *)output, sizeof output, scratch, room, ranges, 3, gpa, bytes, used,
                   cr3, cr4, 0, report);
    return report[ARCHWEND_NUMBER];
}

static int refused_at(uint64_t address, uint64_t level) {
    return report[ARCHWEND_PLACE_ADDRESS] == address && report[ARCHWEND_PLACE_LEVEL] == level;
}

static int built(uint64_t used, uint64_t reached) {
    return report[ARCHWEND_USED] == used && report[ARCHWEND_MOVED] == 1 && report[ARCHWEND_MERGED] == 0 &&
           report[ARCHWEND_REACHED] == reached && memcmp(output, expected, sizeof output) == 0;
}

static int four_levels(void) {
    fill(3);
    for (int i = 0; i < 3; i++) {
        if (load(gpa, 0x3000, i, 4096, 0) != ARCHWEND_OK)
            return 0;
    }
    if (load(gpa, 0x3000, 0, 5, 0) != ARCHWEND_PAGE_LENGTH)
        return 0;
    expected[2][1] = 0;
    expected[2][2] = 0x4000e3;
    if (build(0x200000, size, 0x3000, gpa, 0, 3) != ARCHWEND_OK || !built(0x3000, 3))
        return 0;
    /* No room for the leaf. */
    return build(0x200000, size, 0x3000, gpa, 0, 2) == ARCHWEND_NO_ROOM && refused_at(0x200000, 1);
}

static int five_levels(void) {
    const uint64_t cr4 = 0x1000;

    fill(4);
    for (int i = 0; i < 4; i++) {
        if (load(gpa, 0x4000, i, 4096, cr4) != ARCHWEND_OK)
            return 0;
    }
    expected[3][1] = 0;
    expected[0][1] = 0x104023;
    expected[4][0] = 0x105023;
    expected[5][0] = 0x106023;
    expected[6][1] = LIMIT + 0x2000e3;
    if (build(LIMIT, size, 0x4000, gpa, cr4, 3) != ARCHWEND_OK || !built(0x7000, 4))
        return 0;
    /* No free table below the root; the last 2 MiB, and past them; the root in the free tail. */
    if (build(LIMIT, 0x4000, 0x4000, gpa, cr4, 3) != ARCHWEND_NO_FREE_TABLE || !refused_at(LIMIT + 0x200000, 4))
        return 0;
    if (build(WIDE_LIMIT - 0x400000, size, 0x4000, gpa, cr4, 3) != ARCHWEND_OK || output[6][511] != WIDE_LIMIT - 0x200000 + 0xe3)
        return 0;
    if (build(WIDE_LIMIT - 0x200000, size, 0x4000, gpa, cr4, 3) != ARCHWEND_OUT_OF_BOUNDS || !refused_at(0x200000, 1))
        return 0;
    return build(LIMIT, size, 0x4000, gpa + 0x4000, cr4, 3) == ARCHWEND_FREE_TAIL && refused_at(0, 5);
}

static uint64_t list[9], answer[4];

/* Compares the image with the build's output, with a list of so many words. */
static uint64_t compare(size_t image_len, size_t output_len, size_t room) {
    memset(list, 0xa5, sizeof list);
    archwend_compare((const uint8_t *)image, image_len, (const uint8_t *)output, output_len, list, room, answer);
    return answer[ARCHWEND_COMPARED_NUMBER];
}

static int compared(uint64_t count, uint64_t start, uint64_t bytes) {
    return answer[ARCHWEND_COMPARED_COUNT] == count && answer[ARCHWEND_COMPARED_START] == start &&
           answer[ARCHWEND_COMPARED_SIZE] == bytes;
}

/* What the build of four levels changed. */
static int comparison(void) {
    const uint64_t dirty = 0xa5a5a5a5a5a5a5a5u, changes[9] = {2, 1, 0x2000e3, 0, 2, 2, 0, 0x4000e3, 0}, none[9] = {0};

    if (!four_levels() || build(0x200000, size, 0x3000, gpa, 0, 3) != ARCHWEND_OK)
        return 0;
    if (compare(0x3000, 0x3000, 9) != ARCHWEND_OK || !compared(2, 0x2000, 4096) || memcmp(list, changes, sizeof list) != 0)
        return 0;
    /* Just room enough, and not; no difference before the third page. */
    if (compare(0x3000, 0x3000, 8) != ARCHWEND_OK || memcmp(list, changes, 8 * sizeof *list) != 0 || list[8] != dirty)
        return 0;
    if (compare(0x3000, 0x3000, 7) != ARCHWEND_NO_ROOM || !compared(0, 0, 0) || memcmp(list, none, 7 * sizeof *list) != 0)
        return 0;
    if (compare(0x2000, 0x2000, 0) != ARCHWEND_OK || !compared(0, 0, 0) || compare(0, 0, 0) != ARCHWEND_OK)
        return 0;
    if (compare(0x2000, 0x3000, 9) != ARCHWEND_NOT_COMPARABLE || !compared(0, 0, 0) || memcmp(list, none, sizeof list) != 0)
        return 0;
    return compare(0x2008, 0x2008, 9) == ARCHWEND_NOT_COMPARABLE;
}

/* Where a region may end: 2^48, or 2^52 where cr4 has the bit 0x1000, whatever the other bits. */
static int bounds(void) {
    const uint64_t all = ~(uint64_t)0;

    if (load(LIMIT - size, 0x1000, 0, 4096, 0) != ARCHWEND_OK || load(LIMIT - size, 0x1000, 0, 4096, all - 0x1000) != ARCHWEND_OK)
        return 0;
    if (load(LIMIT, 0x1000, 0, 4096, 0) != ARCHWEND_REGION || load(LIMIT, 0x1000, 0, 4096, all - 0x1000) != ARCHWEND_REGION)
        return 0;
    if (load(LIMIT, 0x1000, 0, 4096, 0x1000) != ARCHWEND_OK || load(LIMIT, 0x1000, 0, 4096, all) != ARCHWEND_OK)
        return 0;
    return load(WIDE_LIMIT - size, 0x1000, 0, 4096, 0x1000) == ARCHWEND_OK &&
           load(WIDE_LIMIT - size + 4096, 0x1000, 0, 4096, 0x1000) == ARCHWEND_REGION;
}

/* The same entries, made and read one by one. */
static int entries(void) {
    uint64_t entry = 0, address, bytes, index;
    uint32_t masks[32];

    if (archwend_set_entry(&entry, ARCHWEND_TABLE, 0x101000) != ARCHWEND_OK || entry != 0x101023)
        return 0;
    if (archwend_set_entry(&entry, ARCHWEND_LEAF_2M, 0x201000) != ARCHWEND_ENTRY || entry != 0x101023)
        return 0;
    if (archwend_set_entry(&entry, ARCHWEND_LEAF_2M, 0x200000) != ARCHWEND_OK || entry != 0x2000e3)
        return 0;
    if (archwend_is_present(entry) != 1 || archwend_is_large_page(entry) != 1)
        return 0;
    if (archwend_gpa(entry, &address) != 1 || address != 0x200000)
        return 0;
    if (archwend_set_addr(&entry, 0x400000) != ARCHWEND_OK || entry != 0x4000e3)
        return 0;
    if (archwend_mapping_size(1, &bytes) != ARCHWEND_OK || bytes != 0x200000)
        return 0;
    if (archwend_get_amd64_pte_index(0x400000, 1, &index) != ARCHWEND_OK || index != 2)
        return 0;
    if (archwend_calculate_page_table_index(gpa, size, 0x3000, 0x102000, &index) != 1 || index != 2)
        return 0;
    archwend_clear(&entry);
    if (entry != 0 || archwend_gpa(entry, &address) != 0 || address != 0)
        return 0;
    return archwend_extract_individual_masks(0x11000, masks) == 2 && masks[0] == 0x1000 && masks[1] == 0x10000 && masks[2] == 0;
}

/* What stands below a large leaf's address stays; no leaf has a level above 2. */
static int leaves(void) {
    uint64_t leaf = 0x3010e3, address = 1;

    if (archwend_set_leaf_addr(&leaf, 1, 0x400000) != ARCHWEND_OK || leaf != 0x5010e3)
        return 0;
    if (archwend_leaf_gpa(leaf, 1, &address) != 1 || address != 0x400000)
        return 0;
    if (archwend_leaf_gpa(0xa00000e3, 2, &address) != 1 || address != 0x80000000)
        return 0;
    if (archwend_set_leaf_addr(&leaf, 1, 0x401000) != ARCHWEND_ENTRY || leaf != 0x5010e3)
        return 0;
    if (archwend_set_leaf_addr(&leaf, 3, 0x8000000000) != ARCHWEND_ENTRY || leaf != 0x5010e3)
        return 0;
    if (archwend_leaf_gpa(0, 2, &address) != 0 || address != 0)
        return 0;
    address = 1;
    return archwend_leaf_gpa(0, 3, &address) == ARCHWEND_ENTRY && address == 0;
}

/* An entry of level 4 maps 2^48, and bits 48 to 56 are its index; there is no level above. */
static int levels(void) {
    uint64_t bytes, index;

    if (archwend_mapping_size(4, &bytes) != ARCHWEND_OK || bytes != LIMIT)
        return 0;
    if (archwend_get_amd64_pte_index(0xff03000000603000u, 4, &index) != ARCHWEND_OK || index != 0x103)
        return 0;
    if (archwend_mapping_size(5, &bytes) != ARCHWEND_ENTRY || bytes != 0)
        return 0;
    return archwend_get_amd64_pte_index(0x3000, 5, &index) == ARCHWEND_ENTRY && index == 0;
}

int main(void) {
    int (*const parts[])(void) = {four_levels, five_levels, comparison, bounds, entries, leaves, levels};

    for (int i = 0; i < 7; i++) {
        if (!parts[i]())
            return i + 1;
    }
    puts("four levels, five levels, comparison, bounds, entries, leaves, levels: as expected");
    return 0;
}
