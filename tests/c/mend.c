/* The mender as C sees it: buffers that held noise, rooms that are one byte short or some bytes long, refusals. */
#include <stdio.h>
#include <string.h>

#include "yengrazul.h"

static const uint8_t image[] = {
    0x41, 0, 10, 255, 255, 0, 0, 0, 1, 0, 0, 0, 4, /* main: 1 register, 4 instructions */
    0x43, 0, 6, 3, 2, 0, 0, 0, 7,                  /* Jmp 2 0 0, a stray break, mark 7 */
    0x43, 0, 6, 3, 0, 255, 255, 0, 8,              /* Jmp to 0, mark 8: it stays */
    0x43, 0, 6, 3, 0, 128, 4, 0, 9,                /* Jmp to -32762, mark 9 */
    0x43, 0, 6, 20, 0, 0, 0, 255, 255,             /* Return 0 0 0 */
};
static const uint8_t entries[] = {0, 0, 0, 0, 3, 2, 0, 0, 0, 0, 0, 2, 3, 0, 128, 4};
static const uint8_t four[] = {20, 0, 0, 0};
#define SIZE sizeof image
#define LIST sizeof entries
#define MORE 5
static int wrong;

static int zero(const uint8_t *bytes, size_t n)
{
    for (size_t k = 0; k < n; k++)
        if (bytes[k]) return 0;
    return 1;
}

/* A call on noise, with these rooms; what is due is number, place, and whether image and list are written. */
static void mends(const char *what, const uint8_t *lent, size_t room, size_t list_room, uint64_t number, uint64_t place)
{
    uint8_t out[SIZE + MORE + 1], list[LIST + MORE + 1], due[SIZE];
    uint64_t answer[6] = {~0ull, ~0ull, ~0ull, ~0ull, ~0ull, ~0ull};
    int taken = number == 0, good;
    memset(out, 0xA5, sizeof out), memset(list, 0x5A, sizeof list), memcpy(due, image, SIZE);
    memcpy(due + 16, four, 4), memcpy(due + 34, four, 4);
    yengrazul_mend(lent, SIZE, out, room, list, list_room, answer + 1);
    good = answer[1] == number && answer[2] == place && answer[3] == (taken ? SIZE : 0) && answer[4] == (taken ? 2 : 0);
    good = good && answer[0] == ~0ull && answer[5] == ~0ull && out[room] == 0xA5 && list[list_room] == 0x5A;
    good = good && (taken ? !memcmp(out, due, SIZE) && zero(out + SIZE, room - SIZE) : zero(out, room));
    good = good && (taken ? !memcmp(list, entries, LIST) && zero(list + LIST, list_room - LIST) : zero(list, list_room));
    if (!good) {
        printf("differs: %s: %llu %llu %llu %llu\n", what, (unsigned long long)answer[1], (unsigned long long)answer[2],
               (unsigned long long)answer[3], (unsigned long long)answer[4]);
        wrong = 1;
    }
}

int main(void)
{
    uint8_t broken[SIZE];
    mends("rooms that are enough", image, SIZE, LIST, 0, 0);
    mends("rooms that are longer", image, SIZE + MORE, LIST + MORE, 0, 0);
    mends("a list one byte short", image, SIZE, LIST - 1, YENGRAZUL_LIST_ROOM, 0);
    mends("a list one entry short, and no output", image, 0, LIST - 8, YENGRAZUL_LIST_ROOM, 0);
    mends("an output one byte short", image, SIZE - 1, LIST, YENGRAZUL_ROOM, 0);
    mends("no output", image, 0, LIST, YENGRAZUL_ROOM, 0);
    memcpy(broken, image, SIZE);
    broken[13 + 9 + 4] = 3; /* a of the jump that stays */
    mends("3 in a, and a target inside", broken, SIZE, LIST, YENGRAZUL_IMAGE_RULE, 2);
    broken[0] = 0x99;
    mends("a field that cannot follow", broken, 0, 0, YENGRAZUL_IMAGE_RULE, 0);
    broken[1] = 0xFF;
    mends("a payload that runs past the end", broken, SIZE, LIST, YENGRAZUL_IMAGE_FRAME, 0);
    if (sizeof entries > YENGRAZUL_LIST_BYTES(SIZE)) wrong = 1;
    puts(wrong ? "yengrazul_mend: differences" : "yengrazul_mend: no difference");
    return wrong;
}
