/*
 * Lowers a tree file to an image file; docs/FORMATS.md says what both hold. Link target/staticlib/libyengrazul.a, which
 * `tools/prove.sh yengrazul_c` writes (x86-64, Linux), or what `pkg-config --libs yengrazul` says of an installed package.
 */
#ifndef YENGRAZUL_H
#define YENGRAZUL_H

#include <stddef.h>
#include <stdint.h>

/* The version of the project, as a text and as numbers to compare. */
#define YENGRAZUL_VERSION "0.1.0"
#define YENGRAZUL_VERSION_MAJOR 0
#define YENGRAZUL_VERSION_MINOR 1
#define YENGRAZUL_VERSION_PATCH 0

#ifdef __cplusplus
extern "C" {
#endif

/*
 * The whole call. It reads tree[0..tree_len), writes all of work, out and answer, and touches nothing else.
 *
 *   answer[0]  number: 0 accepted, else a refusal of enum yengrazul_refusal
 *   answer[1]  place: the node at fault, counted from 0 in the order of the fields (of 1, the whole fields before it); 0 where accepted and of 21
 *   answer[2]  length: how many bytes of out are the image; 0 where refused
 *   answer[3]  visits: how many nodes were lowered, a node that is lowered twice counted twice; 0 where refused
 *
 * Visits say how much work the tree was, for whoever schedules it: a node counts one plus its lowered children; the right side of a Minus counts twice
 * where its left is a number equal to one of 0 to 255, and a number on the right of Plus that equals one counts nothing. They are the same in every
 * mode, at most the number of nodes where no such Minus occurs, and at most YENGRAZUL_VISITS_MOST(nodes) in any case.
 *
 * Mode. YENGRAZUL_MODE_0 lowers as document 01 says and as the Rust does: continue in a for loop starts the loop over, a classic for's
 * initializer included. In YENGRAZUL_MODE_1 it goes on with the loop: to the first instruction of a classic for's increment (to the jump back
 * where the increment gives none), to the step of a for-in's counter. Continue in a while is the same in both. Classes are retired: mode 1 refuses a
 * tree with a class (27), and mode 0 lowers it as before. Any other number, all 64 bits of it
 * compared, is refused by 21 before anything else is looked at, whatever the tree and the buffers are. The image does not say its mode.
 *
 * Marks. A tree whose last field has tag 3E in place of 1E is wide: every mark in it has four bytes, for a line and a column, and its image has
 * instructions of tag 47, with a mark of four bytes, in place of 43. No mark is 4294967295 there, and 65535 in a narrow tree. Nothing else differs:
 * number, place, visits and the words of work that are asked for are those of the tree with narrow marks.
 *
 * Buffers. They may hold anything before the call. Afterwards work is all zero, out is the image and then zeros, or all zero where
 * refused, and tree is as it was. work has YENGRAZUL_WORDS(nodes) words or more (else 6), out has room for the image (else 18).
 * All of work and out is cleared in every call, so larger ones cost time. Nothing is allocated and nothing outlives the call.
 *
 * The caller's part. The four areas do not overlap, are aligned as their types are, and no pointer is NULL, not even one whose length is 0.
 * Any bytes may be asked about, none at all included: what is no tree is refused.
 *
 * Threads. There is no state outside the areas that are lent: calls on distinct work, out and answer may run at the same time, on one tree too.
 *
 * Stack. Calls nest as deep as the tree, 128 nodes at most; a call takes less than YENGRAZUL_STACK_BYTES of the calling thread's stack.
 *
 *     size_t words = YENGRAZUL_WORDS(yengrazul_nodes(tree, tree_len));
 *     uint32_t *work = malloc(words * sizeof *work);
 *     uint64_t answer[4];
 *     yengrazul_lower(tree, tree_len, work, words, out, out_len, YENGRAZUL_MODE_0, answer);
 *     if (answer[0] != YENGRAZUL_ACCEPTED)
 *         printf("%s at node %" PRIu64 ": %s\n", yengrazul_name(answer[0]), answer[1], yengrazul_cause(answer[0]));
 */
void yengrazul_lower(const uint8_t *tree, size_t tree_len, uint32_t *work, size_t work_len, uint8_t *out, size_t out_len,
                     uint64_t mode, uint64_t answer[4]);

/*
 * Reads an image back: whether the bytes are an image by document 02's rules (docs/FORMATS.md, "Reading an image back").
 *
 *   answer[0]  number: 0 taken, 19 or 20 of enum yengrazul_refusal
 *   answer[1]  place: fields are counted from 0 in the whole image; of 19, the whole fields before the one that is cut; of 20, the first field that
 *              cannot follow, or the number of fields where the end comes too soon, else the lowest instruction for which a fact fails (a
 *              capture's at its Closure); 0 where taken
 *
 * Every image that yengrazul_lower writes is taken, in either mode and of either width; one that mixes the tags 43 and 47 is not. Any bytes may be
 * asked about. It reads image[0..image_len), writes the two numbers of answer, which may hold anything before, and touches nothing else; nothing is
 * allocated, the time is linear in the bytes. The caller's part and threads are as above; a call takes less than YENGRAZUL_READ_STACK_BYTES of the
 * calling thread's stack.
 *
 *     uint64_t answer[2];
 *     yengrazul_read(image, image_len, answer);
 *     if (answer[0] != YENGRAZUL_ACCEPTED)
 *         printf("%s, field %" PRIu64 ": %s\n", yengrazul_name(answer[0]), answer[1], yengrazul_cause(answer[0]));
 */
void yengrazul_read(const uint8_t *image, size_t image_len, uint64_t answer[2]);

/*
 * Walks a prototype of an image by recorded decisions and tells which instructions the walk visited (docs/FORMATS.md, "Walking a prototype").
 * decisions has a byte for each Test that the walk meets, in their order: 0 it went to the next instruction, 1 it skipped one. strikes has the
 * numbers of the steps, from 0 and rising, at which a failure strikes in place of the ordinary step. A RegisterTryCatch registers its handler and
 * goes on to the next instruction; a DeregisterTryCatch takes off the handler registered last, if any. A struck step enters that handler, which
 * stays registered; it uses no decision, registers nothing and takes nothing off. The walk takes at most budget steps.
 *
 *   answer[0]  number: 0 walked, else a refusal: those of yengrazul_read, then 22, 23, 25, 29 in this order
 *   answer[1]  place: that of yengrazul_read; of 23 the offset of the first decision that is no 0 or 1, used or not; of 25 the number, from 0, of
 *              the first strike that is not above the one before it; else 0
 *   answer[2]  steps taken, at most budget
 *   answer[3]  index of the instruction where the walk stood at its end
 *   answer[4]  how it ended, of enum yengrazul_ending, judged in their order before each step
 *
 * visited may hold anything before the call. Afterwards visited[i] is 1 where instruction i was visited, the last one included, and 0 everywhere
 * else, behind the instructions too; YENGRAZUL_INSTRUCTIONS_MOST bytes are always enough. Where the walk is refused all of visited is 0, and so are
 * the three last numbers of answer. It reads image, decisions and strikes, writes visited and answer, and touches nothing else; nothing is
 * allocated. The time is linear in the bytes and the steps. The caller's part and threads are as above.
 *
 *     uint64_t answer[5];
 *     yengrazul_walk(image, image_len, prototype, decisions, decisions_len, strikes, strikes_len, budget, visited, visited_len, answer);
 *     if (answer[0] == YENGRAZUL_ACCEPTED && answer[4] != YENGRAZUL_ENDED_RETURN)
 *         printf("%s at instruction %" PRIu64 "\n", yengrazul_ended(answer[4]), answer[3]);
 */
void yengrazul_walk(const uint8_t *image, size_t image_len, uint64_t prototype, const uint8_t *decisions, size_t decisions_len,
                    const uint64_t *strikes, size_t strikes_len, uint64_t budget, uint8_t *visited, size_t visited_len, uint64_t answer[5]);

/* How a walk ended. */
enum yengrazul_ending {
    YENGRAZUL_ENDED_RETURN = 0,    /* at a Return */
    YENGRAZUL_ENDED_DECISIONS = 1, /* at a Test that is not struck, and no decision is left */
    YENGRAZUL_ENDED_BUDGET = 2,    /* all steps of the budget are taken */
    YENGRAZUL_ENDED_FAILED = 3,    /* struck, and no handler is registered; this step is not counted */
    YENGRAZUL_ENDED_HANDLERS = 4   /* at a RegisterTryCatch that is not struck, and 256 handlers are registered; this step is not counted */
};

/* No prototype of an image has more instructions. */
#define YENGRAZUL_INSTRUCTIONS_MOST 65535

/*
 * Mends an image that the Rust left on an old card (docs/FORMATS.md, "Mending an image"): each Jmp that is an unpatched break or continue (2 or 1 in
 * a), or whose target leaves its prototype, becomes Return 0 0 0 with its mark kept, of two bytes or four; every other byte stays. yengrazul_read
 * takes the result.
 *
 *   answer[0]  number: 0 mended, else 19 and 20 as yengrazul_read tells them of the mended image, then 26 where list is too short, then 18 where
 *              out is shorter than the image
 *   answer[1]  place: of 19 and 20 that of yengrazul_read; else 0
 *   answer[2]  length: how many bytes of out are the image, as many as image_len; 0 where refused
 *   answer[3]  entries: how many jumps were replaced; 0 where refused
 *
 * list gets YENGRAZUL_ENTRY_BYTES for each jump that was replaced, in order: prototype and index as words, high byte first, then the old opcode, a, b
 * and c. out and list may hold anything before the call. Afterwards out is the mended image and then zeros, list its entries and then zeros; where
 * refused both are all zero. image_len bytes of out and YENGRAZUL_LIST_BYTES(image_len) of list are always enough. It reads image, writes out, list
 * and answer, and touches nothing else; nothing is allocated, the time is linear in the bytes. The caller's part and threads are as above.
 *
 *     uint64_t answer[4];
 *     yengrazul_mend(image, image_len, out, image_len, list, YENGRAZUL_LIST_BYTES(image_len), answer);
 *     if (answer[0] == YENGRAZUL_ACCEPTED && answer[3] > 0)
 *         printf("%" PRIu64 " jumps were replaced\n", answer[3]);
 */
void yengrazul_mend(const uint8_t *image, size_t image_len, uint8_t *out, size_t out_len, uint8_t *list, size_t list_len, uint64_t answer[4]);

/* An entry of the list, and room for every list of an image of so many bytes: an instruction takes nine at least. */
#define YENGRAZUL_ENTRY_BYTES 8
#define YENGRAZUL_LIST_BYTES(image_len) ((size_t)(image_len) / 9 * YENGRAZUL_ENTRY_BYTES)

/* The modes. */
#define YENGRAZUL_MODE_0 ((uint64_t)0)
#define YENGRAZUL_MODE_1 ((uint64_t)1)

/* The refusals of the whole input alone, 21, 1 to 3, 27 and 4 to 6, in a mode and for a work area of work_len words; where there is none the
   length is the number of nodes. */
void yengrazul_check(const uint8_t *tree, size_t tree_len, size_t work_len, uint64_t mode, uint64_t answer[3]);

/* STACK_BYTES: tests/parts/45-worst measures what the worst trees and images take, and that it is less. */
#define YENGRAZUL_STACK_BYTES 1048576
#define YENGRAZUL_READ_STACK_BYTES 131072

/* A tree of more nodes is refused (2). */
#define YENGRAZUL_NODES_MOST 32768

/* The words of 32 bits that the work area needs for so many nodes. */
#define YENGRAZUL_WORDS(nodes) ((size_t)12288 + (size_t)16 * (size_t)(nodes))

/* No accepted tree of so many nodes has more visits: one for each, and one more for each of 1,024 constants. */
#define YENGRAZUL_VISITS_MOST(nodes) ((uint64_t)1025 * (uint64_t)(nodes))

/* No image is longer: 256 prototypes of 255 captures and 32,767 instructions with wide marks, 1,024 constants. Most are some 8 bytes for each node,
   wide ones some 10. */
#define YENGRAZUL_IMAGE_MOST ((size_t)256 * (13 + 255 * 5 + 32767 * 11) + (size_t)1024 * 11)

/* answer[0], and when it is given. Of a tree: 21 comes before all; 1 to 6 are about the whole input, in that order, with 27 between 3 and 4; 7 to 17
   are the first met as the tree is lowered; 18 comes last. Of an image: 19, then 20. Of a walk: those of its image, then 22, 23, 25, 29. Of mending:
   those of the mended image, then 26, then 18. */
enum yengrazul_refusal {
    YENGRAZUL_ACCEPTED = 0,
    YENGRAZUL_FRAME = 1,
    YENGRAZUL_MANY = 2,
    YENGRAZUL_SHAPE = 3,
    YENGRAZUL_TREE = 4,
    YENGRAZUL_DEPTH = 5,
    YENGRAZUL_WORK = 6,
    YENGRAZUL_REGISTERS = 7,
    YENGRAZUL_CAPTURES = 8,
    YENGRAZUL_UNDEFINED = 9,
    YENGRAZUL_REDEFINED = 10,
    YENGRAZUL_STRAY = 11,
    YENGRAZUL_EMPTY = 12,
    YENGRAZUL_RETURN = 13,
    YENGRAZUL_CONSTANTS = 14,
    YENGRAZUL_PROTOTYPES = 15,
    YENGRAZUL_NESTING = 16,
    YENGRAZUL_LONG = 17,
    YENGRAZUL_ROOM = 18,
    YENGRAZUL_IMAGE_FRAME = 19,
    YENGRAZUL_IMAGE_RULE = 20,
    YENGRAZUL_MODE = 21,
    YENGRAZUL_PROTOTYPE = 22,
    YENGRAZUL_DECISION = 23,
    YENGRAZUL_ORDER = 25,
    YENGRAZUL_LIST_ROOM = 26,
    YENGRAZUL_RETIRED = 27,
    YENGRAZUL_VISITS = 29
};

/* The name of a number, as documents 01 and 02 have it: "Registers" for 7. */
static inline const char *yengrazul_name(uint64_t number)
{
    static const char *const names[] = {
        "Accepted",   "Frame", "Many",  "Shape",  "Tree",      "Depth",      "Work",    "Registers", "Captures", "Undefined",
        "Redefined",  "Stray", "Empty", "Return", "Constants", "Prototypes", "Nesting", "Long",      "Room",     "Image frame",
        "Image rule", "Mode",  "Prototype", "Decision", NULL,  "Order",      "List room", "Retired", NULL,       "Visits",
    };
    return number < sizeof names / sizeof *names && names[number] ? names[number] : "Unknown";
}

/* The cause of a refusal in words, for a line such as "refused 7 Registers at node 412: a function may take 255 registers". */
static inline const char *yengrazul_cause(uint64_t number)
{
    static const char *const causes[] = {
        "accepted",
        "a header or a payload runs past the end, or there is no field at all",
        "a tree may have 32,768 nodes",
        "a node's tag, size, operators, names and children must be as 01 says, and a program stands last and only there",
        "every node but the last must be a child exactly once",
        "a node may stand 128 deep, the program being 1",
        "the work area must have 12,288 words and 16 more for each node",
        "a function may take 255 registers",
        "a function may capture 255 variables",
        "the variable is found nowhere: no local, capture, builtin or global has its name",
        "a global let must not name a global that is known already",
        "break and continue must stand in a loop of their own function",
        "a function body of one statement must give an instruction",
        "a return can give back registers 0 to 253, and its value is in register 254",
        "a program may have 1,024 constants",
        "a program may have 256 prototypes, the main one counted",
        "eight functions may be open at once, the main one counted",
        "a function may have 32,767 instructions, its last Return counted",
        "the image must fit into the output",
        "a header or a payload of the image runs past the end, or there is no field at all",
        "the image's fields must follow as 01 says, and every instruction must keep 02's rules",
        "the mode must be 0 or 1",
        "the image must have a prototype of this number",
        "a decision must be 0 or 1",
        NULL, /* 24 and 28 are given by no call */
        "a strike must be above the one before it",
        "the list must have eight bytes for each jump that is replaced",
        "classes are retired: mode 1 lowers none, and mode 0 lowers them as before",
        NULL,
        "there must be a lent byte for each instruction of the prototype",
    };
    return number < sizeof causes / sizeof *causes && causes[number] ? causes[number] : "no refusal has this number";
}

/* answer[4] of a walk in words, for a line such as "17 steps, at instruction 9: at a Return". */
static inline const char *yengrazul_ended(uint64_t ending)
{
    static const char *const endings[] = {"at a Return", "out of decisions", "out of budget", "failed, with no handler registered", "over 256 handlers registered"};
    return ending < sizeof endings / sizeof *endings ? endings[ending] : "no ending has this number";
}

/* How many whole fields stand at the front of a tree, counted no further than YENGRAZUL_NODES_MOST: for YENGRAZUL_WORDS. */
static inline size_t yengrazul_nodes(const uint8_t *tree, size_t tree_len)
{
    size_t nodes = 0, at = 0;
    while (nodes < YENGRAZUL_NODES_MOST && tree_len - at >= 3) {
        size_t payload = (size_t)tree[at + 1] << 8 | tree[at + 2];
        if (tree_len - at - 3 < payload) break;
        at += 3 + payload;
        nodes++;
    }
    return nodes;
}

#ifdef __cplusplus
}
#endif

#endif
