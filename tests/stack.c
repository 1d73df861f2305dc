/* How deep the stack goes in a build whose walk goes down all of five levels, and whose moved leaf needs a new table on each but the
 * root's. Prints the bytes below the caller's frame. */
#include "archwend.h"
#include <stdio.h>
#include <string.h>
#include <ucontext.h>

enum { ROOM = 65536, FILL = 0xa5 };

static uint64_t image[5][512], output[9][512], scratch[3], report[8];
static const uint64_t ranges[3] = {0x1000, 0x1fff, 0x1000000000000};
static unsigned char stack[ROOM] __attribute__((aligned(64)));
static unsigned char *top;
static ucontext_t back, there;

static void build(void) {
    unsigned char here;

    top = &here;
    archwend_build((const uint8_t *)image, sizeof image, (uint8_t *)output, sizeof output, scratch, 3, ranges, 3, 0x100000, 0x9000,
                   0x5000, 0x100000, 0x1000, 0, report);
}

int main(void) {
    size_t untouched = 0;

    for (uint64_t i = 0; i < 4; i++)
        image[i][0] = 0x101023 + 4096 * i;
    image[4][1] = 0x1063;
    memset(stack, FILL, sizeof stack);
    getcontext(&there);
    there.uc_stack.ss_sp = stack;
    there.uc_stack.ss_size = sizeof stack;
    there.uc_link = &back;
    makecontext(&there, build, 0);
    swapcontext(&back, &there);
    while (untouched < sizeof stack && stack[untouched] == FILL)
        untouched++;
    if (report[ARCHWEND_NUMBER] != ARCHWEND_OK || report[ARCHWEND_USED] != 0x9000)
        return 1;
    printf("%zu\n", (size_t)(top - (stack + untouched)));
    return 0;
}
