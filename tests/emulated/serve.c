/* The other end of forward.c, for x86-64: asks the archive as often as it is asked itself. No header is used, since the machine's own are of another processor. */
typedef unsigned char u8;
typedef unsigned int u32;
typedef unsigned long u64;

long read(int, void *, u64);
long write(int, const void *, u64);
void *mmap(void *, u64, int, int, int, long);
void _exit(int);

#define SHARED (1ul << 30)

static u8 *shared;

/* A request: which call, whether its stack is looked at, then what it is lent. */
#define NUMBERS 16
#define DEEP (4ul << 20)
#define BYTES(k) (shared + r[k])
#define WORDS(k) ((u32 *)(shared + r[k]))
#define TOLD(k) ((u64 *)(shared + r[k]))

void yengrazul_lower(const u8 *, u64, u32 *, u64, u8 *, u64, u64, u64 *);
void yengrazul_check(const u8 *, u64, u64, u64, u64 *);
void yengrazul_read(const u8 *, u64, u64 *);
void yengrazul_walk(const u8 *, u64, u64, const u8 *, u64, const u64 *, u64, u64, u8 *, u64, u64 *);
void yengrazul_mend(const u8 *, u64, u8 *, u64, u8 *, u64, u64 *);

static void __attribute__((noinline)) call(u64 which, const u64 *r)
{
    switch (which) {
    case 0: yengrazul_lower(BYTES(0), r[1], WORDS(2), r[3], BYTES(4), r[5], r[6], TOLD(7)); break;
    case 1: yengrazul_check(BYTES(0), r[1], r[2], r[3], TOLD(4)); break;
    case 2: yengrazul_read(BYTES(0), r[1], TOLD(2)); break;
    case 3: yengrazul_walk(BYTES(0), r[1], r[2], BYTES(3), r[4], TOLD(5), r[6], r[7], BYTES(8), r[9], TOLD(10)); break;
    case 4: yengrazul_mend(BYTES(0), r[1], BYTES(2), r[3], BYTES(4), r[5], TOLD(6)); break;
    default: _exit(3);
    }
}

/* The stack below is painted, then looked at: how much of it a call has touched. */
static void __attribute__((noinline)) paint(u8 seed)
{
    volatile u8 deep[DEEP];
    for (u64 k = 0; k < DEEP; k++) deep[k] = seed;
}

static u64 __attribute__((noinline)) touched(u8 seed)
{
    volatile u8 deep[DEEP];
    u64 k = 0;
    while (k < DEEP && deep[k] == seed) k++;
    return DEEP - k;
}

static void answer(const u64 *request)
{
    if (request[1]) paint(0x5A);
    call(request[0], request + 2);
    if (request[1]) *(u64 *)(shared + SHARED - sizeof(u64)) = touched(0x5A);
}

int main(void)
{
    u64 request[NUMBERS];
    shared = mmap(0, SHARED, 3, 1 | 0x4000, 3, 0); /* read and write; shared, no reserve */
    if ((long)shared == -1) _exit(2);
    for (;;) {
        u64 n = 0;
        while (n < sizeof request) {
            long k = read(0, (u8 *)request + n, sizeof request - n);
            if (k <= 0) _exit(k < 0);
            n += k;
        }
        answer(request);
        if (write(1, "", 1) != 1) _exit(2);
    }
}
