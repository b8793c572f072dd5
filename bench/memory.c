/* How fast one core reads entries of 28 bytes one after another, as a scan does, by nanoseconds an entry at three lengths:
   memory [huge]. With the tests of a scan alone; with a prefetch of the line 4,096 bytes on, which Rattle has not; and the
   bytes alone, 32 at a time. Then by parts of 64 edges that are written down, as the store scans what is all of the past:
   as it is; with that prefetch; and, in its place, with ordinary looks at the first eight lines of the next page where a
   part reaches it, and at all lines of the part after it. Last by parts of entries with payloads of 8 bytes, which lie apart
   from them and are copied part by part: with a look at all lengths of a part before the copy and another look behind it,
   as the store does; and with one look and the copy behind it. A long row of entries is pushed out of the caches before
   each round, and the least of all rounds is printed. With "huge" entries and payloads lie in huge pages, which a program
   has to ask its kernel for. */
#define _GNU_SOURCE
#include <immintrin.h>
#include <stdint.h>
#include <stdio.h>
#include <stdlib.h>
#include <string.h>
#include <sys/mman.h>
#include <time.h>

#define ENTRY 28
#define MOST 1000000
#define OTHERS ((size_t)256 << 20)
#define PART 64
#define LINE 64
#define PAGE 4096
#define KEEP(p) __asm__ volatile("" : : "r"(p) : "memory")

typedef uint64_t u64;
typedef u64 (*walk)(const unsigned char *rows, size_t n);

static u64 number(const unsigned char *p)
{
    u64 n;
    memcpy(&n, p, 8);
    return __builtin_bswap64(n);
}

static u64 seen(const unsigned char *p)
{
    return number(p + 8) <= 5 && number(p + 16) > 5 ? number(p) : 0;
}

static u64 tests(const unsigned char *rows, size_t n)
{
    u64 sum = 0;
    for (const unsigned char *p = rows; p < rows + n * ENTRY; p += ENTRY)
        sum += seen(p);
    return sum;
}

static u64 tests_ahead(const unsigned char *rows, size_t n)
{
    u64 sum = 0;
    for (const unsigned char *p = rows; p < rows + n * ENTRY; p += ENTRY) {
        __builtin_prefetch(p + 4096);
        sum += seen(p);
    }
    return sum;
}

static u64 bytes(const unsigned char *rows, size_t n)
{
    __m256i sum = _mm256_setzero_si256();
    for (const unsigned char *p = rows; p + 32 <= rows + n * ENTRY; p += 32)
        sum = _mm256_add_epi64(sum, _mm256_loadu_si256((const __m256i *)p));
    return (u64)_mm256_extract_epi64(sum, 0) + (u64)_mm256_extract_epi64(sum, 3);
}

static struct edge {
    u64 d;
    uint32_t from, to;
} edges[PART];

/* Looks at some lines from here on, and keeps nothing of them. */
static inline void look(const unsigned char *from, const unsigned char *end, int lines)
{
    u64 any = 0;
    for (int i = 0; i < lines && from + i * LINE < end; i++)
        any |= from[i * LINE];
    KEEP(any);
}

enum ahead { NOTHING, PREFETCH, NEXT_PAGE, NEXT_PART };

static inline u64 by_parts(const unsigned char *rows, size_t n, enum ahead ahead)
{
    u64 sum = 0;
    const unsigned char *end = rows + n * ENTRY;
    for (const unsigned char *part = rows; part < end; part += PART * ENTRY) {
        const unsigned char *behind = part + PART * ENTRY < end ? part + PART * ENTRY : end;
        const unsigned char *page = (const unsigned char *)((uintptr_t)behind & ~(uintptr_t)(PAGE - 1));
        if (ahead == NEXT_PAGE && page > part)
            look(page, end, 8);
        if (ahead == NEXT_PART)
            look(behind, end, PART * ENTRY / LINE);
        unsigned seen = 0;
        for (const unsigned char *p = part; p < behind; p += ENTRY) {
            u64 ended;
            memcpy(&ended, p + 16, 8);
            if (ahead == PREFETCH)
                __builtin_prefetch(p + PAGE);
            edges[seen] = (struct edge){number(p), 0, 0};
            seen += ended == ~(u64)0;
        }
        KEEP(edges);
        for (unsigned i = 0; i < seen; i++)
            sum += edges[i].d;
    }
    return sum;
}

static u64 parts(const unsigned char *rows, size_t n)
{
    return by_parts(rows, n, NOTHING);
}

static u64 parts_ahead(const unsigned char *rows, size_t n)
{
    return by_parts(rows, n, PREFETCH);
}

static u64 parts_page(const unsigned char *rows, size_t n)
{
    return by_parts(rows, n, NEXT_PAGE);
}

static u64 parts_next(const unsigned char *rows, size_t n)
{
    return by_parts(rows, n, NEXT_PART);
}

/* The payloads of all entries: those of the first entries, which are the newest, lie last. */
static unsigned char *payloads, range[PART * 8];

static uint32_t length_of(const unsigned char *p)
{
    uint32_t n;
    memcpy(&n, p + 24, 4);
    return __builtin_bswap32(n);
}

static inline u64 paid(const unsigned char *rows, size_t n, int looks)
{
    u64 sum = 0;
    const unsigned char *end = rows + n * ENTRY, *top = payloads + n * 8;
    for (const unsigned char *part = rows; part < end; part += PART * ENTRY) {
        const unsigned char *behind = part + PART * ENTRY < end ? part + PART * ENTRY : end;
        uint32_t all = 0;
        if (looks == 2) {
            for (const unsigned char *p = part; p < behind; p += ENTRY)
                all += length_of(p);
            memcpy(range, top - all, all);
        }
        unsigned seen = 0;
        uint32_t at = 0;
        for (const unsigned char *p = part; p < behind; p += ENTRY) {
            u64 ended;
            memcpy(&ended, p + 16, 8);
            uint32_t to = at;
            at += length_of(p);
            edges[seen] = (struct edge){number(p), at, to};
            seen += ended == ~(u64)0;
        }
        if (looks == 1) {
            all = at;
            memcpy(range, top - all, all);
        }
        top -= all;
        KEEP(edges);
        KEEP(range);
        for (unsigned i = 0; i < seen; i++)
            sum += edges[i].d + number(range + all - edges[i].from);
    }
    return sum;
}

static u64 paid_twice(const unsigned char *rows, size_t n)
{
    return paid(rows, n, 2);
}

static u64 paid_once(const unsigned char *rows, size_t n)
{
    return paid(rows, n, 1);
}

static double seconds(void)
{
    struct timespec t;
    clock_gettime(CLOCK_MONOTONIC, &t);
    return t.tv_sec + t.tv_nsec * 1e-9;
}

static unsigned char *room(size_t len, int huge)
{
    void *p = mmap(0, len, PROT_READ | PROT_WRITE, MAP_PRIVATE | MAP_ANONYMOUS, -1, 0);
    if (p == MAP_FAILED)
        exit(1);
    if (huge)
        madvise(p, len, MADV_HUGEPAGE);
    return p;
}

/* the least time of an entry, in nanoseconds */
static double least(walk walk, const unsigned char *rows, size_t n, const unsigned char *others, u64 *sum)
{
    double best = 1e9;
    size_t walks = n == MOST ? 1 : 2000000 / n;
    for (int round = 0; round < 20; round++) {
        for (size_t at = 0; n == MOST && at < OTHERS; at += 64)
            *sum += others[at];
        double start = seconds();
        for (size_t i = 0; i < walks; i++) {
            *sum += walk(rows, n);
            KEEP(rows);
        }
        double time = (seconds() - start) / walks / n * 1e9;
        best = time < best ? time : best;
    }
    return best;
}

int main(int count, char **words)
{
    const char *names[] = {"tests", "tests, with a prefetch", "bytes alone", "parts", "parts, with a prefetch",
                           "parts, next page", "parts, next part", "payloads, two looks", "payloads, one look"};
    walk walks[] = {tests, tests_ahead, bytes, parts, parts_ahead, parts_page, parts_next, paid_twice, paid_once};
    size_t lengths[] = {1000, 10000, MOST};
    int huge = count > 1 && !strcmp(words[1], "huge");
    unsigned char *rows = room(MOST * ENTRY + 8192, huge);
    unsigned char *others = room(OTHERS, 0);
    u64 sum = 0;
    for (size_t i = 0; i < MOST; i++) {
        rows[i * ENTRY + 15] = 3;
        memset(rows + i * ENTRY + 16, 0xff, 8);
        rows[i * ENTRY + 27] = 8;
    }
    memset(others, 1, OTHERS);
    payloads = room(MOST * 8, huge);
    memset(payloads, 7, MOST * 8);
    for (int w = 0; w < (int)(sizeof walks / sizeof *walks); w++) {
        double times[3];
        for (int l = 0; l < 3; l++)
            times[l] = least(walks[w], rows, lengths[l], others, &sum);
        printf("%-24s %5.2f %5.2f %5.2f ns, factor %.2f\n", names[w], times[0], times[1], times[2],
               times[2] / (times[0] < times[1] ? times[0] : times[1]));
    }
    return sum == 1;
}
