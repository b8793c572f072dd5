/* Notes when the threads of a program wait: each call of sched_yield, and each write and sync of a file, by the thread,
   with the ticks of the processor before and after it. It is loaded before the C library (LD_PRELOAD), and what was noted
   is written to the file that WAITS names when the program ends: first the ticks and the nanoseconds of the whole run, 8
   bytes each; then for each call the ticks before and after it, 8 bytes each, its kind (1 a yield, 2 a write, 3 a sync) and
   its thread, 4 bytes each. A note takes some 20 ns. */
#include <stdint.h>
#include <stdio.h>
#include <stdlib.h>
#include <sys/syscall.h>
#include <sys/types.h>
#include <time.h>
#include <unistd.h>
#include <x86intrin.h>

#define THREADS 128
#define MOST (1u << 22)

struct call {
    uint64_t before, after;
    uint32_t kind, thread;
};

static struct thread {
    struct call *calls;
    uint32_t count;
} threads[THREADS];
static uint32_t started, is_told;
static uint64_t begin[2];
static __thread struct thread *own;
static __thread uint32_t number;

static void look(uint64_t at[2])
{
    struct timespec now;
    clock_gettime(CLOCK_MONOTONIC, &now);
    at[0] = __rdtsc();
    at[1] = (uint64_t)now.tv_sec * 1000000000 + (uint64_t)now.tv_nsec;
}

__attribute__((constructor)) static void at_begin(void)
{
    look(begin);
}

static void note(uint32_t kind, uint64_t before)
{
    if (!own) {
        number = __atomic_fetch_add(&started, 1, __ATOMIC_RELAXED) % THREADS;
        own = &threads[number];
        own->calls = malloc(MOST * sizeof *own->calls);
    }
    if (own->calls && own->count < MOST)
        own->calls[own->count++] = (struct call){before, __rdtsc(), kind, number};
}

int sched_yield(void)
{
    uint64_t before = __rdtsc();
    int told = (int)syscall(SYS_sched_yield);
    note(1, before);
    return told;
}

ssize_t pwrite(int file, const void *bytes, size_t len, off_t place)
{
    uint64_t before = __rdtsc();
    ssize_t told = syscall(SYS_pwrite64, file, bytes, len, place);
    note(2, before);
    return told;
}

int fdatasync(int file)
{
    uint64_t before = __rdtsc();
    int told = (int)syscall(SYS_fdatasync, file);
    note(3, before);
    return told;
}

static void tell(void)
{
    const char *name = getenv("WAITS");
    FILE *to = name && !__atomic_exchange_n(&is_told, 1, __ATOMIC_RELAXED) ? fopen(name, "wb") : NULL;
    uint64_t end[2];
    look(end);
    for (int i = 0; to && i < 2; i++) {
        end[i] -= begin[i];
        fwrite(&end[i], sizeof end[i], 1, to);
    }
    for (int i = 0; to && i < THREADS; i++)
        if (threads[i].calls)
            fwrite(threads[i].calls, sizeof(struct call), threads[i].count, to);
    if (to)
        fclose(to);
}

__attribute__((destructor)) static void at_end(void)
{
    tell();
}

void _exit(int status)
{
    tell();
    for (;;)
        syscall(SYS_exit_group, status);
}
