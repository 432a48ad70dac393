/* The walk as C sees it: endings in their order, refusals in theirs, strikes, dirty bytes, and guards around all that is lent. */
#include <stdio.h>
#include <string.h>

#include "yengrazul.h"

static const uint8_t image[] = {
    0x41, 0, 10, 255, 255, 0, 0, 0, 1, 0, 0, 0, 5,   /* prototype 0: 1 register, 5 instructions: a loop while decisions are 1 */
    0x43, 0, 6, 4, 0, 0, 0, 0, 1,                    /* 0 Test 0 0 0 */
    0x43, 0, 6, 3, 0, 0, 3, 0, 1,                    /* 1 Jmp, to 4 */
    0x43, 0, 6, 0, 0, 0, 0, 0, 2,                    /* 2 Move 0 0 0 */
    0x43, 0, 6, 3, 0, 255, 253, 0, 2,                /* 3 Jmp, to 0 */
    0x43, 0, 6, 20, 0, 0, 0, 255, 255,               /* 4 Return 0 0 0 */
    0x41, 0, 10, 255, 255, 0, 0, 0, 0, 0, 0, 0, 1,   /* prototype 1: a Return alone */
    0x43, 0, 6, 20, 0, 0, 0, 255, 255,
    0x41, 0, 10, 255, 255, 0, 0, 0, 1, 0, 0, 0, 5,   /* prototype 2: a try */
    0x43, 0, 6, 48, 0, 0, 3, 255, 255,               /* 0 RegisterTryCatch, to 3 */
    0x43, 0, 6, 4, 0, 0, 0, 0, 3,                    /* 1 Test 0 0 0 */
    0x43, 0, 6, 3, 0, 255, 254, 0, 3,                /* 2 Jmp, to 0 */
    0x43, 0, 6, 49, 0, 0, 0, 255, 255,               /* 3 DeregisterTryCatch */
    0x43, 0, 6, 20, 0, 0, 0, 255, 255,               /* 4 Return 0 0 0 */
};
static uint8_t lent_image[sizeof image + 2], lent_decisions[10], lent_bytes[10];
static uint64_t lent_strikes[10];
static int wrong, tried;

/* Strikes are digits, as decisions are. With so many bytes lent: the answer's five numbers, the bytes as digits, and nothing else is changed. */
static void walks(const char *what, size_t length, uint64_t prototype, const char *decisions, const char *strikes, uint64_t budget, const uint64_t due[5],
                  const char *bytes)
{
    uint8_t before[sizeof lent_image], said[sizeof lent_decisions];
    uint64_t struck[sizeof lent_strikes / sizeof *lent_strikes];
    uint64_t answer[7];
    size_t visited = strlen(bytes), k;
    int same;
    memset(answer, 0xA5, sizeof answer);
    memset(lent_bytes, 0xA5, sizeof lent_bytes);
    memset(lent_decisions, 0xA5, sizeof lent_decisions);
    for (k = 0; decisions[k]; k++) lent_decisions[1 + k] = (uint8_t)(decisions[k] - '0');
    memset(lent_strikes, 0xA5, sizeof lent_strikes);
    for (k = 0; strikes[k]; k++) lent_strikes[1 + k] = (uint64_t)(strikes[k] - '0');
    memcpy(struck, lent_strikes, sizeof struck);
    memcpy(before, lent_image, sizeof before);
    memcpy(said, lent_decisions, sizeof said);
    yengrazul_walk(lent_image + 1, length, prototype, lent_decisions + 1, strlen(decisions), lent_strikes + 1, strlen(strikes), budget, lent_bytes + 1,
                   visited, answer + 1);
    same = !memcmp(answer + 1, due, 5 * sizeof *due) && !memcmp(before, lent_image, sizeof before) && !memcmp(said, lent_decisions, sizeof said);
    same = same && !memcmp(struck, lent_strikes, sizeof struck);
    same = same && answer[0] == 0xA5A5A5A5A5A5A5A5u && answer[6] == 0xA5A5A5A5A5A5A5A5u && lent_bytes[0] == 0xA5 && lent_bytes[1 + visited] == 0xA5;
    for (k = 0; k < visited; k++) same = same && lent_bytes[1 + k] == bytes[k] - '0';
    tried++;
    if (same) return;
    printf("differs: %s:", what);
    for (k = 1; k < 6; k++) printf(" %llu", (unsigned long long)answer[k]);
    printf("; %s\n", yengrazul_ended(answer[5]));
    wrong = 1;
}
#define WALKS(what, prototype, decisions, budget, steps, index, ending, bytes) STRUCK(what, prototype, decisions, "", budget, steps, index, ending, bytes)
#define STRUCK(what, prototype, decisions, strikes, budget, steps, index, ending, bytes)                                                                        \
    walks(what, sizeof image, prototype, decisions, strikes, budget, (const uint64_t[5]){YENGRAZUL_ACCEPTED, 0, steps, index, ending}, bytes)
#define REFUSED(what, length, prototype, decisions, strikes, number, place, bytes)                                                                              \
    walks(what, length, prototype, decisions, strikes, 9, (const uint64_t[5]){number, place, 0, 0, 0}, bytes)

int main(void)
{
    memset(lent_image, 0xA5, sizeof lent_image);
    memcpy(lent_image + 1, image, sizeof image);
    WALKS("a Return", 0, "10", 9, 5, 4, YENGRAZUL_ENDED_RETURN, "11111");
    WALKS("a Return as the budget ends", 0, "10", 5, 5, 4, YENGRAZUL_ENDED_RETURN, "11111");
    WALKS("decisions left over, bytes left over", 0, "011", 9, 2, 4, YENGRAZUL_ENDED_RETURN, "11001000");
    WALKS("no decision left", 0, "1", 9, 3, 0, YENGRAZUL_ENDED_DECISIONS, "10110");
    WALKS("no decision left as the budget ends", 0, "1", 3, 3, 0, YENGRAZUL_ENDED_DECISIONS, "10110");
    WALKS("no budget left", 0, "10", 4, 4, 1, YENGRAZUL_ENDED_BUDGET, "11110");
    WALKS("no budget", 0, "1", 0, 0, 0, YENGRAZUL_ENDED_BUDGET, "10000");
    WALKS("the other prototype", 1, "", 0, 0, 0, YENGRAZUL_ENDED_RETURN, "1");
    STRUCK("a strike at a Test without decisions", 2, "", "1", 9, 3, 4, YENGRAZUL_ENDED_RETURN, "11011");
    STRUCK("a strike before the handler is registered", 2, "1", "0", 9, 0, 0, YENGRAZUL_ENDED_FAILED, "10000");
    STRUCK("a struck DeregisterTryCatch takes nothing off", 2, "", "123", 9, 5, 4, YENGRAZUL_ENDED_RETURN, "11011");
    STRUCK("a strike at a Return", 2, "1", "3", 9, 3, 4, YENGRAZUL_ENDED_RETURN, "11011");
    STRUCK("no budget for a failure", 2, "", "0", 0, 0, 0, YENGRAZUL_ENDED_BUDGET, "10000");
    REFUSED("no image", 0, 9, "2", "11", YENGRAZUL_IMAGE_FRAME, 0, "000");
    REFUSED("two prototypes alone, and a number that they have not", sizeof image - 58, 2, "2", "11", YENGRAZUL_PROTOTYPE, 0, "000");
    REFUSED("an image that ends too soon", sizeof image - 9, 9, "2", "11", YENGRAZUL_IMAGE_RULE, 13, "000");
    REFUSED("no such prototype", sizeof image, 3, "2", "11", YENGRAZUL_PROTOTYPE, 0, "000");
    REFUSED("a number of 64 bits", sizeof image, (uint64_t)1 << 32, "", "", YENGRAZUL_PROTOTYPE, 0, "00000");
    REFUSED("a decision that is none, behind those used", sizeof image, 0, "0112", "11", YENGRAZUL_DECISION, 3, "000");
    REFUSED("strikes that do not rise", sizeof image, 0, "0", "0233", YENGRAZUL_ORDER, 3, "000");
    REFUSED("strikes that fall", sizeof image, 0, "0", "3210", YENGRAZUL_ORDER, 1, "00000");
    REFUSED("too few bytes", sizeof image, 0, "0", "9", YENGRAZUL_VISITS, 0, "0000");
    if (!wrong) printf("walk: %d walks, 0 differences\n", tried);
    return wrong;
}
