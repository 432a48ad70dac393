/*
 * The exported calls on a machine whose processor is not the archive's (x86-64). Each call is made by a child process: the archive itself,
 * linked into serve.c and run by the kit's emulator. What is lent is copied into memory that both share, between guards, and back afterwards.
 * tests/staticlib compiles this into an archive that links here. A new call has its number, its function here, and its case in serve.c.
 */
#define _GNU_SOURCE
#include <fcntl.h>
#include <pthread.h>
#include <spawn.h>
#include <stdint.h>
#include <stdio.h>
#include <stdlib.h>
#include <string.h>
#include <sys/mman.h>
#include <sys/wait.h>
#include <unistd.h>

/* Without the string stores that the C library clears memory by where it finds them: the emulator makes them byte by byte, half of all its time. */
#define PROCESSOR "max,erms=off,fsrm=off"

#define SHARED ((size_t)1 << 30)
#define GUARD 64
#define SEED 0xA5

extern char **environ;

static __thread struct {
    pid_t pid;
    int asked, told;
    uint8_t *shared;
} child;

static pthread_key_t ending;
static pthread_once_t once = PTHREAD_ONCE_INIT;

static void fail(const char *what)
{
    fprintf(stderr, "the emulated call: %s\n", what);
    abort();
}

/* A child ends when its pipe does. */
static void end(void *shared)
{
    close(child.asked), close(child.told);
    munmap(shared, SHARED);
    waitpid(child.pid, NULL, 0);
}

static void prepare(void)
{
    pthread_key_create(&ending, end);
}

/* The same file, above the numbers that a child has its own under: other threads open and close files meanwhile, so any number may be told. */
static int aside(int file)
{
    int other = fcntl(file, F_DUPFD_CLOEXEC, 4);
    if (other < 0) fail("no file to share");
    close(file);
    return other;
}

/* One child for each thread. */
static void start(void)
{
    int ask[2], tell[2], memory = memfd_create("lent", MFD_CLOEXEC);
    posix_spawn_file_actions_t actions;
    char *words[] = {EMULATOR, "-cpu", PROCESSOR, LOADER, "--library-path", LIBRARIES, SERVER, NULL};
    if (memory < 0 || ftruncate(memory, SHARED) || pipe2(ask, O_CLOEXEC) || pipe2(tell, O_CLOEXEC)) fail("no memory to share");
    child.shared = mmap(NULL, SHARED, PROT_READ | PROT_WRITE, MAP_SHARED | MAP_NORESERVE, memory, 0);
    if (child.shared == MAP_FAILED) fail("no memory to share");
    memory = aside(memory), ask[0] = aside(ask[0]), tell[1] = aside(tell[1]);
    posix_spawn_file_actions_init(&actions);
    posix_spawn_file_actions_adddup2(&actions, memory, 3);
    posix_spawn_file_actions_adddup2(&actions, ask[0], 0);
    posix_spawn_file_actions_adddup2(&actions, tell[1], 1);
    if (posix_spawn(&child.pid, EMULATOR, &actions, NULL, words, environ)) fail("the emulator does not start");
    posix_spawn_file_actions_destroy(&actions);
    close(memory), close(ask[0]), close(tell[1]);
    child.asked = ask[1], child.told = tell[0];
    pthread_once(&once, prepare);
    pthread_setspecific(ending, child.shared);
}

/* What is lent, laid into the shared memory one behind the other. */
struct lent {
    uint64_t at, size;
};

static struct lent lay(uint64_t *end, const void *bytes, uint64_t size)
{
    struct lent l = {(*end + GUARD + 15) & ~(uint64_t)15, size};
    if (l.at + size + GUARD > SHARED) fail("more is lent than can be shared");
    memset(child.shared + *end, SEED, l.at - *end);
    if (size) memcpy(child.shared + l.at, bytes, size);
    memset(child.shared + l.at + size, SEED, GUARD);
    *end = l.at + size;
    return l;
}

static void fetch(struct lent l, void *bytes)
{
    for (int k = 1; k <= GUARD; k++)
        if (child.shared[l.at - k] != SEED || child.shared[l.at + l.size + k - 1] != SEED) fail("a guard was written to");
    if (bytes && l.size) memcpy(bytes, child.shared + l.at, l.size);
}

/* What was lent to be read is as it was. */
static void keep(struct lent l, const void *bytes)
{
    fetch(l, NULL);
    if (l.size && memcmp(bytes, child.shared + l.at, l.size)) fail("what was lent to be read was written to");
}

/* A request: which call, whether its stack is looked at, then what it is lent; serve.c knows the same. */
#define NUMBERS 16
enum { LOWER, CHECK, READ, WALK, MEND };

static void ask(const uint64_t request[NUMBERS])
{
    char done;
    size_t size = NUMBERS * sizeof *request;
    if (write(child.asked, request, size) != (ssize_t)size || read(child.told, &done, 1) != 1) fail("the child has ended");
}
#define ASK(call, ...) ask((uint64_t[NUMBERS]){call, getenv("YENGRAZUL_STACK") != NULL, __VA_ARGS__})

/* Bytes of stack that the last call of this thread touched, where YENGRAZUL_STACK is set in the environment. */
uint64_t yengrazul_emulated_stack(void)
{
    uint64_t bytes = 0;
    if (child.shared) memcpy(&bytes, child.shared + SHARED - sizeof bytes, sizeof bytes);
    return bytes;
}

void yengrazul_lower(const uint8_t *tree, size_t tree_len, uint32_t *work, size_t work_len, uint8_t *out, size_t out_len, uint64_t mode,
                     uint64_t answer[4])
{
    if (!child.shared) start();
    uint64_t end = 0;
    struct lent t = lay(&end, tree, tree_len), w = lay(&end, work, 4 * (uint64_t)work_len), o = lay(&end, out, out_len), a = lay(&end, answer, 8 * 4);
    ASK(LOWER, t.at, tree_len, w.at, work_len, o.at, out_len, mode, a.at);
    keep(t, tree), fetch(w, work), fetch(o, out), fetch(a, answer);
}

void yengrazul_check(const uint8_t *tree, size_t tree_len, size_t work_len, uint64_t mode, uint64_t answer[3])
{
    if (!child.shared) start();
    uint64_t end = 0;
    struct lent t = lay(&end, tree, tree_len), a = lay(&end, answer, 8 * 3);
    ASK(CHECK, t.at, tree_len, work_len, mode, a.at);
    keep(t, tree), fetch(a, answer);
}

void yengrazul_read(const uint8_t *image, size_t image_len, uint64_t answer[2])
{
    if (!child.shared) start();
    uint64_t end = 0;
    struct lent i = lay(&end, image, image_len), a = lay(&end, answer, 8 * 2);
    ASK(READ, i.at, image_len, a.at);
    keep(i, image), fetch(a, answer);
}

void yengrazul_walk(const uint8_t *image, size_t image_len, uint64_t prototype, const uint8_t *decisions, size_t decisions_len,
                    const uint64_t *strikes, size_t strikes_len, uint64_t budget, uint8_t *visited, size_t visited_len, uint64_t answer[5])
{
    if (!child.shared) start();
    uint64_t end = 0;
    struct lent i = lay(&end, image, image_len), d = lay(&end, decisions, decisions_len), s = lay(&end, strikes, 8 * (uint64_t)strikes_len);
    struct lent v = lay(&end, visited, visited_len), a = lay(&end, answer, 8 * 5);
    ASK(WALK, i.at, image_len, prototype, d.at, decisions_len, s.at, strikes_len, budget, v.at, visited_len, a.at);
    keep(i, image), keep(d, decisions), keep(s, strikes), fetch(v, visited), fetch(a, answer);
}

void yengrazul_mend(const uint8_t *image, size_t image_len, uint8_t *out, size_t out_len, uint8_t *list, size_t list_len, uint64_t answer[4])
{
    if (!child.shared) start();
    uint64_t end = 0;
    struct lent i = lay(&end, image, image_len), o = lay(&end, out, out_len), l = lay(&end, list, list_len), a = lay(&end, answer, 8 * 4);
    ASK(MEND, i.at, image_len, o.at, out_len, l.at, list_len, a.at);
    keep(i, image), fetch(o, out), fetch(l, list), fetch(a, answer);
}
