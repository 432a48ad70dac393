/* The reader as C sees it: an image, its cuts, and one fault of each kind. */
#include <stdio.h>
#include <string.h>

#include "yengrazul.h"

static const uint8_t image[] = {
    0x41, 0, 10, 0, 9, 0, 1, 0, 2, 0, 0, 0, 4,       /* prototype 0: name 9, 1 parameter, 2 registers, 0 captures, 4 instructions */
    0x43, 0, 6, 46, 0, 0, 0, 0, 11,                  /* GetCurrentFunc 0 */
    0x43, 0, 6, 18, 1, 1, 0, 0, 10,                  /* Neg 1 1 0 */
    0x43, 0, 6, 20, 1, 3, 0, 0, 10,                  /* Return 1 3 0 */
    0x43, 0, 6, 20, 0, 0, 0, 255, 255,               /* Return 0 0 0, no mark */
    0x41, 0, 10, 255, 255, 0, 0, 0, 1, 0, 0, 0, 3,   /* main: 1 register, 3 instructions */
    0x43, 0, 6, 23, 0, 0, 0, 0, 11,                  /* Closure 0 0 0 */
    0x43, 0, 6, 45, 0, 0, 0, 0, 11,                  /* SetGlobal 0 0 0 */
    0x43, 0, 6, 20, 0, 0, 0, 255, 255,               /* Return 0 0 0 */
    0x45, 0, 2, 0, 9,                                /* constant 0: the text of name 9 */
};
static uint8_t lent[sizeof image + 2];
static int wrong;

/* What is lent is as it was, and the answer's two numbers alone are written. */
static void reads(const char *what, size_t length, uint64_t number, uint64_t place)
{
    uint8_t before[sizeof lent];
    uint64_t answer[4] = {~0ull, ~0ull, ~0ull, ~0ull};
    memcpy(before, lent, sizeof lent);
    yengrazul_read(lent + 1, length, answer + 1);
    if (answer[1] != number || answer[2] != place || answer[0] != ~0ull || answer[3] != ~0ull || memcmp(before, lent, sizeof lent)) {
        printf("differs: %s: %llu %llu where %llu %llu is due\n", what, (unsigned long long)answer[1], (unsigned long long)answer[2],
               (unsigned long long)number, (unsigned long long)place);
        wrong = 1;
    }
}

/* The same with one byte changed. */
static void changed(const char *what, size_t at, uint8_t byte, uint64_t number, uint64_t place)
{
    uint8_t old = lent[1 + at];
    lent[1 + at] = byte;
    reads(what, sizeof image, number, place);
    lent[1 + at] = old;
}

int main(void)
{
    lent[0] = lent[sizeof lent - 1] = 0xA5;
    memcpy(lent + 1, image, sizeof image);
    reads("program 9", sizeof image, YENGRAZUL_ACCEPTED, 0);
    reads("no bytes", 0, YENGRAZUL_IMAGE_FRAME, 0);
    reads("a constant cut", sizeof image - 1, YENGRAZUL_IMAGE_FRAME, 9);
    reads("without its constant", sizeof image - 5, YENGRAZUL_IMAGE_RULE, 7);
    reads("the end too soon", sizeof image - 14, YENGRAZUL_IMAGE_RULE, 8);
    changed("a field of no tag", 49, 0x40, YENGRAZUL_IMAGE_RULE, 5);
    changed("a register too many", 26, 2, YENGRAZUL_IMAGE_RULE, 2);
    changed("a Closure of itself", 67, 1, YENGRAZUL_IMAGE_RULE, 6);
    changed("a mark is free", 69, 12, YENGRAZUL_ACCEPTED, 0);
    /* two instructions of either width */
    const uint8_t wide[] = {0x41, 0, 10, 255, 255, 0, 0, 0, 0, 0, 0, 0, 2, 0x47, 0, 8, 20, 0, 0, 0, 0, 1, 0, 2, 0x47, 0, 8, 20, 0, 0, 0, 255, 255, 255, 255};
    const uint8_t narrow[] = {0x43, 0, 6, 20, 0, 0, 0, 0, 1};
    memcpy(lent + 1, wide, sizeof wide);
    reads("wide marks", sizeof wide, YENGRAZUL_ACCEPTED, 0);
    reads("wide marks, the end too soon", sizeof wide - 11, YENGRAZUL_IMAGE_RULE, 2);
    memcpy(lent + 1 + 24, narrow, sizeof narrow);
    reads("43 behind 47", 24 + sizeof narrow, YENGRAZUL_IMAGE_RULE, 2);
    memcpy(lent + 1 + 13, narrow, sizeof narrow), memcpy(lent + 1 + 22, wide + 24, 11);
    reads("47 behind 43", 33, YENGRAZUL_IMAGE_RULE, 2);
    if (!wrong) puts("read: 13 images, 0 differences");
    return wrong;
}
