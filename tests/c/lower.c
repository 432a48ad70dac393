/* The header and the static library from C: reference programs 9 and 10, no bytes at all, a continue in both modes, modes that are none, short
   buffers, and buffers full of noise before each call. */
#include "yengrazul.h"

#include <inttypes.h>
#include <stdio.h>
#include <string.h>

/* 9: global function f (name 9), parameter x (name 10), body minus x. */
static const uint8_t minus_x[] = {
    0x04, 0, 4, 0, 10, 0, 9,                            /* 0: variable x */
    0x05, 0, 6, 0, 2, 0, 10, 0, 0,                      /* 1: unary Minus of 0 */
    0x10, 0, 2, 0, 1,                                   /* 2: expression 1 */
    0x1C, 0, 12, 0, 9, 0, 11, 0, 1, 0, 10, 0, 12, 0, 2, /* 3: function statement f, one parameter, body 2 */
    0x1E, 0, 2, 0, 3,                                   /* 4: program */
};

static const uint8_t minus_x_image[] = {
    0x41, 0, 10, 0, 9, 0, 1, 0, 2, 0, 0, 0, 4,       /* f: one parameter, two registers, no capture, four instructions */
    0x43, 0, 6, 46, 0, 0, 0, 0, 11,                  /* GetCurrentFunc 0 0 0 */
    0x43, 0, 6, 18, 1, 1, 0, 0, 10,                  /* Neg 1 1 0 */
    0x43, 0, 6, 20, 1, 3, 0, 0, 10,                  /* Return 1 3 0 */
    0x43, 0, 6, 20, 0, 0, 0, 255, 255,               /* Return 0 0 0, no mark */
    0x41, 0, 10, 255, 255, 0, 0, 0, 1, 0, 0, 0, 3,   /* main */
    0x43, 0, 6, 23, 0, 0, 0, 0, 11,                  /* Closure 0 0 0 */
    0x43, 0, 6, 45, 0, 0, 0, 0, 11,                  /* SetGlobal 0 0 0 */
    0x43, 0, 6, 20, 0, 0, 0, 255, 255,               /* Return 0 0 0 */
    0x45, 0, 2, 0, 9,                                /* constant 0: text f */
};

/* 10: the same with body x alone. */
static const uint8_t x_alone[] = {
    0x04, 0, 4, 0, 10, 0, 9,                            /* 0: variable x */
    0x10, 0, 2, 0, 0,                                   /* 1: expression 0 */
    0x1C, 0, 12, 0, 9, 0, 11, 0, 1, 0, 10, 0, 12, 0, 1, /* 2: function statement f */
    0x1E, 0, 2, 0, 2,                                   /* 3: program */
};

/* A for whose body is continue: condition 1, increment io (a builtin), no initializer. */
static const uint8_t continues[] = {
    0x01, 0, 8, 0x3F, 0xF0, 0, 0, 0, 0, 0, 0,            /* 0: number 1 */
    0x04, 0, 4, 0, 0, 0, 7,                             /* 1: variable io */
    0x17, 0, 2, 0, 8,                                   /* 2: continue */
    0x14, 0, 10, 0, 9, 255, 255, 0, 0, 0, 1, 0, 2,      /* 3: for */
    0x1E, 0, 2, 0, 3,                                   /* 4: program */
};

/* Its image in mode 1. In mode 0 the continue's Jmp is 3 0 255 253: back to the LoadK. */
static const uint8_t continues_image[] = {
    0x41, 0, 10, 255, 255, 0, 0, 0, 2, 0, 0, 0, 7,   /* main */
    0x43, 0, 6, 1, 0, 0, 0, 255, 255,                /* LoadK 0 0 0 */
    0x43, 0, 6, 4, 0, 0, 0, 0, 9,                    /* Test 0 0 0 */
    0x43, 0, 6, 3, 0, 0, 4, 0, 9,                    /* Jmp 0 0 4 */
    0x43, 0, 6, 3, 0, 0, 1, 0, 8,                    /* Jmp 0 0 1: to the increment */
    0x43, 0, 6, 47, 1, 0, 1, 0, 7,                   /* GetBuiltin 1 0 1 */
    0x43, 0, 6, 3, 0, 255, 251, 0, 9,                /* Jmp 0 255 251 */
    0x43, 0, 6, 20, 0, 0, 0, 255, 255,               /* Return 0 0 0 */
    0x44, 0, 8, 0x3F, 0xF0, 0, 0, 0, 0, 0, 0,         /* constant 0: number 1 */
    0x45, 0, 2, 0, 0,                                /* constant 1: text io */
};

/* An empty block, and a class with no superclass and no method. */
static const uint8_t class_tree[] = {
    0x12, 0x00, 0x00, 0x1D, 0x00, 0x08, 0x00, 0x14, 0x00, 0x03, 0xFF, 0xFF, 0x00, 0x00, 0x1E, 0x00, 0x04, 0x00, 0x01, 0x00, 0x00,
};
static const uint8_t class_image[] = {
    0x41, 0x00, 0x0A, 0xFF, 0xFF, 0x00, 0x00, 0x00, 0x03, 0x00, 0x00, 0x00, 0x05, 0x43, 0x00, 0x06, 0x01, 0x01, 0x00, 0x00, 0x00, 0x03,
    0x43, 0x00, 0x06, 0x02, 0x02, 0x00, 0x00, 0x00, 0x03, 0x43, 0x00, 0x06, 0x1F, 0x00, 0x01, 0x02, 0x00, 0x03, 0x43, 0x00, 0x06, 0x2D,
    0x00, 0x00, 0x01, 0x00, 0x03, 0x43, 0x00, 0x06, 0x14, 0x00, 0x00, 0x00, 0xFF, 0xFF, 0x45, 0x00, 0x02, 0x00, 0x14, 0x45, 0x00, 0x02,
    0x00, 0x14,
};

static uint32_t work[YENGRAZUL_WORDS(5)];
static uint8_t out[200];
static int failures;

static void expect(int holds, const char *program, const char *what)
{
    if (holds) return;
    printf("FAILED: %s: %s\n", program, what);
    failures++;
}

/* One call in a mode on buffers full of noise, held to a number and a place, and to an image where it is accepted. */
static void call_in(uint64_t mode, const char *program, const uint8_t *tree, size_t tree_len, size_t words, size_t room, uint64_t number,
                    uint64_t place, const uint8_t *image, size_t length)
{
    uint64_t answer[4] = {7, 7, 7, 7};
    memset(work, 0xA5, sizeof work);
    memset(out, 0x5A, sizeof out);
    yengrazul_lower(tree, tree_len, work, words, out, room, mode, answer);
    expect(answer[0] == number && answer[1] == place && answer[2] == length, program, "number, place or length is wrong");
    /* no program here has a Plus or a Minus, so each node is visited once */
    expect(answer[3] == (number ? 0 : yengrazul_nodes(tree, tree_len)), program, "the visits are wrong");
    expect(length == 0 || memcmp(out, image, length) == 0, program, "the image is wrong");
    for (size_t i = 0; i < sizeof work / sizeof *work; i++)
        expect(work[i] == (i < words ? 0 : 0xA5A5A5A5), program, "the work area is not zero, or was left");
    for (size_t i = length; i < sizeof out; i++)
        expect(out[i] == (i < room ? 0 : 0x5A), program, "the output behind the image is not zero, or was left");
    if (number == YENGRAZUL_ACCEPTED)
        printf("%s: accepted, %" PRIu64 " bytes, %" PRIu64 " visits\n", program, answer[2], answer[3]);
    else
        printf("%s: refused %" PRIu64 " %s at %" PRIu64 ": %s\n", program, answer[0], yengrazul_name(answer[0]), answer[1],
               yengrazul_cause(answer[0]));
}

static void call(const char *program, const uint8_t *tree, size_t tree_len, size_t words, size_t room, uint64_t number, uint64_t place,
                 const uint8_t *image, size_t length)
{
    call_in(YENGRAZUL_MODE_0, program, tree, tree_len, words, room, number, place, image, length);
}

/* A continue in both modes; then numbers that are no mode, on trees and buffers of every kind. */
static void modes(size_t words)
{
    const uint64_t none[] = {2, (uint64_t)1 << 32, ((uint64_t)1 << 32) + 1, UINT64_MAX};
    const size_t length = sizeof continues_image;
    uint8_t zero[sizeof continues_image];
    memcpy(zero, continues_image, length);
    zero[13 + 3 * 9 + 5] = 255;
    zero[13 + 3 * 9 + 6] = 253;
    call_in(YENGRAZUL_MODE_0, "continue in mode 0", continues, sizeof continues, words, sizeof out, YENGRAZUL_ACCEPTED, 0, zero, length);
    call_in(YENGRAZUL_MODE_1, "continue in mode 1", continues, sizeof continues, words, sizeof out, YENGRAZUL_ACCEPTED, 0, continues_image, length);
    call_in(YENGRAZUL_MODE_0, "a class in mode 0", class_tree, sizeof class_tree, words, sizeof out, YENGRAZUL_ACCEPTED, 0, class_image, sizeof class_image);
    call_in(YENGRAZUL_MODE_1, "a class in mode 1", class_tree, sizeof class_tree, words, sizeof out, YENGRAZUL_RETIRED, 1, NULL, 0);
    call_in(YENGRAZUL_MODE_1, "no bytes in mode 1", continues, 0, words, sizeof out, YENGRAZUL_FRAME, 0, NULL, 0);
    for (size_t i = 0; i < sizeof none / sizeof *none; i++) {
        call_in(none[i], "no mode", continues, sizeof continues, words, sizeof out, YENGRAZUL_MODE, 0, NULL, 0);
        call_in(none[i], "no mode, no buffers", continues, sizeof continues, 0, 0, YENGRAZUL_MODE, 0, NULL, 0);
        call_in(none[i], "no mode, a tree that is cut", continues, 20, words, sizeof out, YENGRAZUL_MODE, 0, NULL, 0);
        call_in(none[i], "no mode, no bytes", continues, 0, words, sizeof out, YENGRAZUL_MODE, 0, NULL, 0);
    }
}

/* Programs 4, 5 and 6: a number that Addi holds is not visited, the right side of 3 - 2 is visited twice, that of 2.5 - 2 once. */
static void visits(size_t words)
{
    uint8_t tree[] = {
        0x01, 0, 8, 0x40, 0x08, 0, 0, 0, 0, 0, 0, /* 0: 3, then 2.5 */
        0x01, 0, 8, 0x40, 0, 0, 0, 0, 0, 0, 0,    /* 1: 2 */
        0x06, 0, 8, 0, 8, 0, 5, 0, 0, 0, 1,       /* 2: minus, then plus */
        0x10, 0, 2, 0, 2,                         /* 3: as a statement */
        0x1E, 0, 2, 0, 3,                         /* 4: program */
    };
    const struct {
        uint8_t left, op;
        uint64_t visits;
    } due[] = {{0x08, 8, 6}, {0x04, 8, 5}, {0x08, 1, 4}};
    for (size_t i = 0; i < sizeof due / sizeof *due; i++) {
        uint64_t answer[4] = {7, 7, 7, 7};
        tree[4] = due[i].left, tree[26] = due[i].op;
        for (uint64_t mode = 0; mode < 2; mode++) {
            yengrazul_lower(tree, sizeof tree, work, words, out, sizeof out, mode, answer);
            expect(answer[0] == YENGRAZUL_ACCEPTED && answer[3] == due[i].visits, "visits", "of a Minus or a Plus are wrong");
            expect(answer[3] <= YENGRAZUL_VISITS_MOST(5), "visits", "over the bound");
        }
    }
}

/* Wide marks: a tree whose last field has tag 3E, and files of both widths. */
static void wide(size_t words)
{
    const uint8_t empty[] = {0x3E, 0, 0};
    const uint8_t empty_image[] = {0x41, 0, 10, 255, 255, 0, 0, 0, 0, 0, 0, 0, 1, 0x47, 0, 8, 20, 0, 0, 0, 255, 255, 255, 255};
    const uint8_t marked[] = {0x18, 0, 4, 0, 12, 0, 5, 0x18, 0, 4, 0, 0, 255, 255, 0x3E, 0, 4, 0, 0, 0, 1}; /* marks 12:5 and 65535 */
    const uint8_t marked_image[] = {
        0x41, 0, 10, 255, 255, 0, 0, 0, 0, 0, 0, 0, 3,
        0x47, 0, 8, 20, 0, 0, 0, 0, 12, 0, 5,
        0x47, 0, 8, 20, 0, 0, 0, 0, 0, 255, 255,
        0x47, 0, 8, 20, 0, 0, 0, 255, 255, 255, 255,
    };
    const uint8_t narrow_payload[] = {0x18, 0, 4, 0, 1, 0, 5, 0x16, 0, 2, 0, 5, 0x3E, 0, 4, 0, 0, 0, 1};
    const uint8_t wide_payload[] = {0x18, 0, 2, 0, 5, 0x16, 0, 4, 0, 1, 0, 5, 0x1E, 0, 4, 0, 0, 0, 1};
    const uint8_t both[] = {0x12, 0, 0, 0x3E, 0, 0, 0x1E, 0, 2, 0, 0};
    for (uint64_t mode = 0; mode < 2; mode++) {
        call_in(mode, "the empty program, wide", empty, sizeof empty, words, sizeof out, YENGRAZUL_ACCEPTED, 0, empty_image, sizeof empty_image);
        call_in(mode, "wide marks", marked, sizeof marked, words, sizeof marked_image, YENGRAZUL_ACCEPTED, 0, marked_image, sizeof marked_image);
    }
    call("the empty program, wide, in just its words", empty, sizeof empty, YENGRAZUL_WORDS(1), sizeof out, YENGRAZUL_ACCEPTED, 0, empty_image,
         sizeof empty_image);
    call("wide marks in a byte less", marked, sizeof marked, words, sizeof marked_image - 1, YENGRAZUL_ROOM, 2, NULL, 0);
    call("a narrow payload in a wide tree", narrow_payload, sizeof narrow_payload, words, sizeof out, YENGRAZUL_SHAPE, 1, NULL, 0);
    call("a wide payload in a narrow tree", wide_payload, sizeof wide_payload, words, sizeof out, YENGRAZUL_SHAPE, 1, NULL, 0);
    call("3E that is not last", both, sizeof both, words, sizeof out, YENGRAZUL_SHAPE, 1, NULL, 0);
}

/* The check alone, on a file and in a mode. */
static void check(const char *program, const uint8_t *tree, size_t tree_len, size_t words, uint64_t mode, uint64_t number, uint64_t place, uint64_t nodes)
{
    uint64_t answer[3] = {7, 7, 7};
    yengrazul_check(tree, tree_len, words, mode, answer);
    expect(answer[0] == number && answer[1] == place && answer[2] == nodes, program, "number, place or nodes of the check are wrong");
}

static void checks(size_t words)
{
    check("a class, checked in mode 0", class_tree, sizeof class_tree, words, YENGRAZUL_MODE_0, YENGRAZUL_ACCEPTED, 0, 3);
    check("a class, checked in mode 1", class_tree, sizeof class_tree, words, YENGRAZUL_MODE_1, YENGRAZUL_RETIRED, 1, 0);
    check("a class, no work area, checked in mode 1", class_tree, sizeof class_tree, 0, YENGRAZUL_MODE_1, YENGRAZUL_RETIRED, 1, 0);
    check("a class, no work area, checked in mode 0", class_tree, sizeof class_tree, 0, YENGRAZUL_MODE_0, YENGRAZUL_WORK, 0, 0);
    check("program 9, checked in mode 1", minus_x, sizeof minus_x, words, YENGRAZUL_MODE_1, YENGRAZUL_ACCEPTED, 0, 5);
    check("no bytes, checked in mode 2", class_tree, 0, words, 2, YENGRAZUL_MODE, 0, 0);
    check("a class, checked in mode 2 to the 32 and 1", class_tree, sizeof class_tree, words, ((uint64_t)1 << 32) + 1, YENGRAZUL_MODE, 0, 0);
}

int main(void)
{
    const size_t words = YENGRAZUL_WORDS(5), length = sizeof minus_x_image;
    expect(yengrazul_nodes(minus_x, sizeof minus_x) == 5, "nodes", "program 9 has five");
    expect(yengrazul_nodes(minus_x, sizeof minus_x - 1) == 4, "nodes", "a field that is cut is none");
    expect(yengrazul_nodes(minus_x, 0) == 0, "nodes", "no bytes have none");
    expect(YENGRAZUL_IMAGE_MOST == 92612864, "sizes", "the longest image");
    for (uint64_t number = 0; number < 100; number++) { /* some numbers between those of the documents are given by no call yet */
        int none = strcmp(yengrazul_name(number), "Unknown") == 0;
        expect(none == (strcmp(yengrazul_cause(number), yengrazul_cause(99)) == 0) && (none || number < 31), "names", "a number has both or neither");
    }
    expect(strcmp(yengrazul_name(YENGRAZUL_PROTOTYPE), "Prototype") == 0 && strcmp(yengrazul_name(YENGRAZUL_VISITS), "Visits") == 0, "names", "22 and 29");
    expect(strcmp(yengrazul_name(YENGRAZUL_MODE), "Mode") == 0, "names", "21 is Mode");
    expect(strcmp(yengrazul_name(YENGRAZUL_RETIRED), "Retired") == 0 && strcmp(yengrazul_name(28), "Unknown") == 0, "names", "27 is Retired");
    expect(strcmp(yengrazul_name(YENGRAZUL_IMAGE_FRAME), "Image frame") == 0, "names", "19 is Image frame");
    expect(strcmp(yengrazul_name(YENGRAZUL_IMAGE_RULE), "Image rule") == 0, "names", "20 is Image rule");

    call("program 9", minus_x, sizeof minus_x, words, sizeof out, YENGRAZUL_ACCEPTED, 0, minus_x_image, length);
    call("program 9 in just its room", minus_x, sizeof minus_x, words, length, YENGRAZUL_ACCEPTED, 0, minus_x_image, length);
    call("program 9 in a byte less", minus_x, sizeof minus_x, words, length - 1, YENGRAZUL_ROOM, 4, NULL, 0);
    call("program 9 with a word less", minus_x, sizeof minus_x, words - 1, sizeof out, YENGRAZUL_WORK, 0, NULL, 0);
    call("program 9 with no work area", minus_x, sizeof minus_x, 0, sizeof out, YENGRAZUL_WORK, 0, NULL, 0);
    call("program 9 cut", minus_x, sizeof minus_x - 1, words, sizeof out, YENGRAZUL_FRAME, 4, NULL, 0);
    call("program 10", x_alone, sizeof x_alone, words, sizeof out, YENGRAZUL_EMPTY, 2, NULL, 0);
    call("no bytes", minus_x, 0, words, sizeof out, YENGRAZUL_FRAME, 0, NULL, 0);
    call("no bytes, no buffers", minus_x, 0, 0, 0, YENGRAZUL_FRAME, 0, NULL, 0);
    modes(words);
    visits(words);
    wide(words);
    checks(words);
    call("program 9 again", minus_x, sizeof minus_x, words, sizeof out, YENGRAZUL_ACCEPTED, 0, minus_x_image, length);
    printf("%d failures\n", failures);
    return failures != 0;
}
