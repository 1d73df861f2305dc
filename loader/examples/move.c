/* Three tables at 0x100000 map the 2 MiB page at 0x200000, which the loader moved: by 2 MiB, and by an offset that is refused. */
#include "archwend.h"
#include <inttypes.h>
#include <stdio.h>

enum { PAGE = 4096, USED = 3 * PAGE, SIZE = 8 * PAGE };

static const uint64_t gpa = 0x100000;
/* The image, with room for the tables that a build makes; as many words of list as an image has entries, times four. */
static uint64_t image[SIZE / 8], output[SIZE / 8], list[SIZE / 2], scratch[3 * 512];

static uint64_t fill(void) {
    uint64_t refused = archwend_set_entry(&image[0], ARCHWEND_TABLE, gpa + PAGE);

    if (refused == ARCHWEND_OK)
        refused = archwend_set_entry(&image[512], ARCHWEND_TABLE, gpa + 2 * PAGE);
    if (refused == ARCHWEND_OK)
        refused = archwend_set_entry(&image[2 * 512 + 1], ARCHWEND_LEAF_2M, 0x200000);
    return refused;
}

static uint64_t show_changes(size_t used) {
    uint64_t answer[4];

    archwend_compare((const uint8_t *)image, used, (const uint8_t *)output, used, list, sizeof list / 8, answer);
    for (uint64_t i = 0; i < answer[ARCHWEND_COMPARED_COUNT]; i++)
        printf("table %" PRIu64 " entry %" PRIu64 ": 0x%" PRIx64 ", now 0x%" PRIx64 "\n", list[4 * i], list[4 * i + 1],
               list[4 * i + 2], list[4 * i + 3]);
    return answer[ARCHWEND_COMPARED_NUMBER];
}

static uint64_t relocate(uint64_t offset) {
    const uint64_t ranges[3] = {0x200000, 0x3fffff, offset};
    uint64_t report[8];

    archwend_build((const uint8_t *)image, USED, (uint8_t *)output, SIZE, scratch, sizeof scratch / 8, ranges, 3, gpa, SIZE, USED,
                   gpa, 0, 0, report);
    if (report[ARCHWEND_NUMBER] != ARCHWEND_OK) {
        printf("refusal %" PRIu64 " at 0x%" PRIx64 ", level %" PRIu64 "\n", report[ARCHWEND_NUMBER],
               report[ARCHWEND_PLACE_ADDRESS], report[ARCHWEND_PLACE_LEVEL]);
        return ARCHWEND_OK;
    }
    printf("used 0x%" PRIx64 ", moved %" PRIu64 ", merged %" PRIu64 ", reached %" PRIu64 "\n", report[ARCHWEND_USED],
           report[ARCHWEND_MOVED], report[ARCHWEND_MERGED], report[ARCHWEND_REACHED]);
    return show_changes(report[ARCHWEND_USED]);
}

int main(void) {
    uint64_t refused = fill();

    if (refused == ARCHWEND_OK)
        refused = relocate(0x200000);
    if (refused == ARCHWEND_OK)
        refused = relocate(0x201000);
    if (refused != ARCHWEND_OK)
        printf("refusal %" PRIu64 "\n", refused);
    return refused != ARCHWEND_OK;
}
