/* The work of crates/block_trial over an array of structs, and appends over bytes, each with a filter of the same
   bits: blocks KIND EDGES 0|8 all|half ROUNDS. It prints a sum of all that was answered. */
#include <stdint.h>
#include <stdio.h>
#include <stdlib.h>
#include <string.h>

#define MIX 0x9E3779B97F4A7C15u
#define PRIVATE (1ull << 63)
#define KEEP(p) __asm__ volatile("" : : "r"(p) : "memory")

typedef uint64_t u64;
typedef struct { u64 d, created, ended; } bare;
typedef struct { u64 d, created, ended; unsigned char p[8]; } paid;
typedef struct { u64 d; const unsigned char *p; } pair;

static u64 number(const unsigned char *p)
{
    u64 n;
    memcpy(&n, p, 8);
    return __builtin_bswap64(n);
}

static int counts(u64 stamp, u64 read, u64 tid)
{
    int own = (stamp >= PRIVATE) & (stamp - PRIVATE == tid);
    return own | ((stamp != 0) & (stamp < PRIVATE) & (stamp <= read));
}

static int visible(u64 created, u64 ended, u64 read, u64 tid)
{
    return counts(created, read, tid) & !counts(ended, read, tid);
}

/* the bytes of a block of an order, and of its filter */
static size_t block_len(int order) { return (size_t)64 << order; }
static size_t filter_len(int order) { return order < 3 ? 0 : (size_t)4 << order; }

static int has_room(int order, size_t edges)
{
    return 36 + filter_len(order) + 36 * (edges + 1) <= block_len(order);
}

static int order_for(size_t edges)
{
    int order = 1;
    while (!has_room(order, edges))
        order++;
    return order;
}

/* the place that the top bits of x name in a filter of len bytes */
static size_t place(size_t len, u64 x) { return x >> (61 - __builtin_ctzll(len)); }

static void set(unsigned char *filter, size_t at) { filter[at / 8] |= 1 << at % 8; }

static int is_set(const unsigned char *filter, size_t at) { return filter[at / 8] >> at % 8 & 1; }

static u64 turned(u64 x, int by) { return x << by | x >> (64 - by); }

static void add(unsigned char *filter, size_t len, u64 d)
{
    u64 x = d * MIX;
    set(filter, place(len, x));
    set(filter, place(len, turned(x, 21)));
    set(filter, place(len, turned(x, 42)));
}

static int may_hold(const unsigned char *filter, size_t len, u64 d)
{
    u64 x = d * MIX;
    return is_set(filter, place(len, x)) && is_set(filter, place(len, turned(x, 21)))
        && is_set(filter, place(len, turned(x, 42)));
}

static int is_ended(u64 place) { return place * MIX >> 63; }

/* the loop over structs with the tests and the sums alone, the newest edge first */
__attribute__((noinline)) static u64 sum_bare(const bare *edges, size_t n, u64 read, u64 tid)
{
    u64 sum = 0;
    for (size_t i = n; i-- > 0;)
        if (visible(edges[i].created, edges[i].ended, read, tid))
            sum += edges[i].d;
    return sum;
}

__attribute__((noinline)) static u64 sum_paid(const paid *edges, size_t n, u64 read, u64 tid)
{
    u64 sum = 0;
    for (size_t i = n; i-- > 0;)
        if (visible(edges[i].created, edges[i].ended, read, tid))
            sum += edges[i].d + number(edges[i].p);
    return sum;
}

/* the same by parts of 64, of which each is taken whole before it is summed */
__attribute__((noinline)) static size_t part_bare(const bare *edges, size_t top, u64 read, u64 tid, pair *out)
{
    size_t many = top < 64 ? top : 64, count = 0;
    for (size_t i = top; i-- > top - many;) {
        out[count].d = edges[i].d;
        count += visible(edges[i].created, edges[i].ended, read, tid);
    }
    return count;
}

__attribute__((noinline)) static size_t part_paid(const paid *edges, size_t top, u64 read, u64 tid, pair *out,
                                                  unsigned char *bytes)
{
    size_t many = top < 64 ? top : 64, count = 0;
    for (size_t i = top; i-- > top - many;) {
        memcpy(bytes + 8 * count, edges[i].p, 8);
        out[count].d = edges[i].d;
        out[count].p = bytes + 8 * count;
        count += visible(edges[i].created, edges[i].ended, read, tid);
    }
    return count;
}

static u64 parts(const bare *b, const paid *q, size_t n)
{
    pair out[65];
    unsigned char bytes[65 * 8];
    u64 sum = 0;
    for (size_t top = n; top > 0; top -= top < 64 ? top : 64) {
        size_t count = b ? part_bare(b, top, 5, 9, out) : part_paid(q, top, 5, 9, out, bytes);
        KEEP(out);
        for (size_t i = 0; i < count; i++)
            sum += out[i].d + (b ? 0 : number(out[i].p));
    }
    return sum;
}

static u64 scan(size_t n, int pays, int half, u64 rounds, int by_parts)
{
    bare *b = pays ? NULL : malloc(n * sizeof *b);
    paid *q = pays ? malloc(n * sizeof *q) : NULL;
    u64 sum = 0;
    for (size_t i = 0; i < n; i++) {
        u64 ended = half && is_ended(i) ? 2 : 0;
        if (pays)
            q[i] = (paid){i, 1, ended, {1, 2, 3, 4, 5, 6, 7, 8}};
        else
            b[i] = (bare){i, 1, ended};
    }
    for (u64 r = 0; r < rounds; r++) {
        KEEP(b);
        KEEP(q);
        sum += by_parts ? parts(b, q, n) : pays ? sum_paid(q, n, 5, 9) : sum_bare(b, n, 5, 9);
    }
    return sum;
}

/* a look for each of 4,096 destinations that are not there: the filter's probe, and where it says yes the walk */
__attribute__((noinline)) static size_t find(const unsigned char *filter, size_t len, const bare *edges, size_t n, u64 d)
{
    if (!may_hold(filter, len, d))
        return 1;
    for (size_t i = n; i-- > 0;)
        if (edges[i].d == d && visible(edges[i].created, edges[i].ended, 5, 9))
            return i;
    return 1;
}

static u64 finds(size_t n, int denied, u64 rounds)
{
    int order = order_for(n);
    size_t len = filter_len(order), many = 0;
    unsigned char *filter = calloc(len, 1);
    bare *edges = malloc(n * sizeof *edges);
    u64 ds[4096], sum = 0;
    for (size_t i = 0; i < n; i++) {
        edges[i] = (bare){i, 1, 0};
        add(filter, len, i);
    }
    for (u64 d = n; d < n + 1000000; d++)
        if (many < 4096 && (!denied || !may_hold(filter, len, d)))
            ds[many++] = d;
    for (u64 r = 0; r < rounds; r++)
        for (size_t i = 0; i < many; i++) {
            KEEP(filter);
            sum += denied ? !may_hold(filter, len, ds[i]) : find(filter, len, edges, n, ds[i]);
        }
    return sum;
}

/* an edge behind the others, as bytes */
static size_t put(unsigned char *bytes, size_t at, u64 d, int pays)
{
    u64 head[3] = {__builtin_bswap64(d), __builtin_bswap64(PRIVATE + 1), 0};
    uint32_t len = __builtin_bswap32(pays ? 8 : 0);
    memcpy(bytes + at, head, 24);
    memcpy(bytes + at + 24, &len, 4);
    if (!pays)
        return at + 28;
    memcpy(bytes + at + 28, "\1\2\3\4\5\6\7\10", 8);
    return at + 36;
}

__attribute__((noinline)) static size_t appends(unsigned char *bytes, unsigned char *filter, size_t len, size_t n, int pays)
{
    size_t at = 0;
    for (size_t d = 0; d < n; d++) {
        add(filter, len, d);
        at = put(bytes, at, d, pays);
    }
    return at;
}

static u64 append(size_t n, int pays, u64 rounds)
{
    int order = order_for(n);
    size_t len = filter_len(order);
    unsigned char *bytes = calloc(block_len(order), 1), *filter = calloc(len, 1);
    u64 sum = 0;
    for (u64 r = 0; r < rounds; r++) {
        memset(filter, 0, len);
        sum += appends(bytes, filter, len, n, pays) - 28 * n;
        KEEP(bytes);
    }
    return sum;
}

/* whether a block of an order has room for n entries of so many bytes each */
static int fits(int order, size_t each, size_t n) { return 36 + filter_len(order) + each * n <= block_len(order); }

/* the same from the least order on: as it becomes full the bytes are doubled by realloc, and the filter is made anew */
__attribute__((noinline)) static u64 doubled(size_t n, int pays)
{
    int order = 0;
    size_t at = 0, each = pays ? 36 : 28;
    while (!fits(order, each, 1))
        order++;
    unsigned char *bytes = malloc(block_len(order)), *filter = NULL;
    for (size_t d = 0; d < n; d++) {
        if (!fits(order, each, d + 1)) {
            while (!fits(order, each, d + 1))
                order++;
            bytes = realloc(bytes, block_len(order));
            free(filter);
            filter = calloc(filter_len(order), 1);
            for (size_t i = 0; i < d && filter_len(order); i++) {
                u64 old;
                memcpy(&old, bytes + each * i, 8);
                add(filter, filter_len(order), __builtin_bswap64(old));
            }
        }
        if (filter_len(order))
            add(filter, filter_len(order), d);
        at = put(bytes, at, d, pays);
    }
    KEEP(bytes);
    KEEP(filter);
    free(bytes);
    free(filter);
    return at - 28 * n + order;
}

int main(int argc, char **argv)
{
    if (argc < 6)
        return 2;
    const char *kind = argv[1];
    size_t n = strtoul(argv[2], NULL, 10);
    int pays = !strcmp(argv[3], "8"), half = !strcmp(argv[4], "half");
    u64 rounds = strtoull(argv[5], NULL, 10), sum = 0;
    if (!strcmp(kind, "scan") || !strcmp(kind, "parts"))
        sum = scan(n, pays, half, rounds, kind[0] == 'p');
    else if (!strcmp(kind, "find") || !strcmp(kind, "absent"))
        sum = finds(n, kind[0] == 'f', rounds);
    else if (!strcmp(kind, "append"))
        sum = append(n, pays, rounds);
    else if (!strcmp(kind, "double"))
        for (u64 r = 0; r < rounds; r++)
            sum += doubled(n, pays);
    else
        return 2;
    printf("sum %llu\n", (unsigned long long)sum);
    return 0;
}
