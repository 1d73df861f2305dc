/* Times the proved build, of a full region and as it grows with the moved leaves, and the comparison as it grows with the images. */
#include "../include/archwend.h"
#include <stdio.h>
#include <stdlib.h>
#include <string.h>
#include <time.h>

enum { PAGE = 4096, TABLES = 512, ROOM = 3 * 131072, LARGEST = TABLES * PAGE };

/* above all that the one table of level 1 maps */
static const uint64_t gpa = 0x100000000;

static uint8_t image[LARGEST], output[LARGEST];
static uint64_t scratch[ROOM], ranges[3 * 1024], list[LARGEST / 2];

static void put(uint64_t table, uint64_t entry, uint64_t value) {
    for (int i = 0; i < 8; i++) image[table * PAGE + entry * 8 + i] = (uint8_t)(value >> (8 * i));
}

/* Pages 0 to leaves - 1, mapped to themselves. Gives the tables used. */
static uint64_t fill(uint64_t leaves) {
    memset(image, 0, sizeof image);
    put(0, 0, (gpa + PAGE) | 0x23);
    put(1, 0, (gpa + 2 * PAGE) | 0x23);
    for (uint64_t page = 0; page < leaves; page++) {
        if (page % 512 == 0) put(2, page / 512, (gpa + (3 + page / 512) * PAGE) | 0x23);
        put(3 + page / 512, page % 512, page * PAGE | 0x63);
    }
    return 3 + (leaves + 511) / 512;
}

static size_t range(size_t k, uint64_t page, uint64_t pages, uint64_t target) {
    ranges[3 * k] = page * PAGE;
    ranges[3 * k + 1] = (page + pages) * PAGE - 1;
    ranges[3 * k + 2] = (target - page) * PAGE;
    return k + 1;
}

enum { ONE, CROSSING, DESCENDING, MORE, ORDERS };
static const char *const names[ORDERS] = {"one range", "two crossing ranges", "125 descending", "descending, 80 each"};

/* The first n pages move to n pages from the target on, in one of these orders. Gives the number of ranges. */
static size_t ask(int order, uint64_t n, uint64_t target) {
    uint64_t width = order == MORE ? 80 : n / 125;
    size_t k = 0;
    if (order == ONE) return range(0, 0, n, target);
    if (order == CROSSING) return range(range(0, 0, n / 2, target + n / 2), n / 2, n / 2, target);
    for (uint64_t page = 0; page < n; page += width) k = range(k, page, width, target + n - width - page);
    return k;
}

/* The process's own time: other work on the machine does not count. */
static double now(void) {
    struct timespec t;
    clock_gettime(CLOCK_PROCESS_CPUTIME_ID, &t);
    return (double)t.tv_sec * 1e3 + (double)t.tv_nsec / 1e6;
}

/* The least time of a few builds, in milliseconds. */
static double build(size_t count, uint64_t used, uint64_t size, uint64_t room, uint64_t n, int turns) {
    uint64_t report[8];
    double best = 1e30;
    for (int i = 0; i < turns; i++) {
        double begun = now();
        archwend_build(image, used * PAGE, output, size * PAGE, scratch, room, ranges, 3 * count, gpa, size * PAGE,
                       used * PAGE, gpa, 0, 0, report);
        double took = now() - begun;
        if (took < best) best = took;
        if (report[ARCHWEND_NUMBER] != ARCHWEND_OK || report[ARCHWEND_MOVED] != n || report[ARCHWEND_MERGED] != 0 ||
            report[ARCHWEND_USED] != (used + (n + 511) / 512) * PAGE) {
            fprintf(stderr, "bench: number %d, used 0x%lx, moved %lu, merged %lu\n", (int)report[ARCHWEND_NUMBER],
                    (unsigned long)report[ARCHWEND_USED], (unsigned long)report[ARCHWEND_MOVED],
                    (unsigned long)report[ARCHWEND_MERGED]);
            exit(1);
        }
    }
    return best;
}

/* The least time of a few comparisons of image and output, in milliseconds. */
static double compare(size_t size, uint64_t count, int turns) {
    uint64_t answer[4];
    double best = 1e30;
    for (int i = 0; i < turns; i++) {
        double begun = now();
        archwend_compare(image, size, output, size, list, 4 * count, answer);
        double took = now() - begun;
        if (took < best) best = took;
        if (answer[ARCHWEND_COMPARED_NUMBER] != ARCHWEND_OK || answer[ARCHWEND_COMPARED_COUNT] != count) {
            fprintf(stderr, "bench: number %d, %lu differences\n", (int)answer[ARCHWEND_COMPARED_NUMBER],
                    (unsigned long)answer[ARCHWEND_COMPARED_COUNT]);
            exit(1);
        }
    }
    return best;
}

/* Prints a row's next time, and times the one before. */
static void column(double took, double *before) {
    if (*before > 0) printf(" %9.3f x %.2f", took, took / *before);
    else printf(" %9.3f", took);
    *before = took;
}

static void builds(int turns) {
    uint64_t used = fill(470 * 512);
    for (int order = 0; order < MORE; order++) {
        size_t count = ask(order, 10000, 480 * 512);
        printf("512 tables, 240640 leaves, 10000 moved, %-20s %4zu ranges %9.3f ms\n", names[order], count,
               build(count, used, TABLES, ROOM, 10000, turns));
    }
    puts("\nall leaves move, from as few tables as hold them: milliseconds, and times the one before");
    printf("%-20s %9d %16d %16d %16d\n", "", 10000, 20000, 40000, 80000);
    for (int order = 0; order < ORDERS; order++) {
        double before = 0;
        printf("%-20s", names[order]);
        for (uint64_t n = 10000; n <= 80000; n *= 2) {
            used = fill(n);
            column(build(ask(order, n, 160 * 512), used, used + (n + 511) / 512, 3 * n, n, turns), &before);
        }
        puts("");
    }
}

static void comparisons(int turns) {
    puts("\ntwo images of so many KiB are compared: milliseconds, and times the one before");
    printf("%-20s %9d %16d %16d %16d\n", "", 256, 512, 1024, 2048);
    for (int differ = 1; differ >= 0; differ--) {
        double before = 0;
        printf("%-20s", differ ? "every entry differs" : "nothing differs");
        memset(image, 0, sizeof image);
        memset(output, differ ? 0xa5 : 0, sizeof output);
        for (size_t size = LARGEST / 8; size <= LARGEST; size *= 2) column(compare(size, differ ? size / 8 : 0, turns), &before);
        puts("");
    }
}

int main(int argc, char **argv) {
    int turns = argc > 1 ? atoi(argv[1]) : 20;
    builds(turns);
    comparisons(turns);
    return 0;
}
