/* What commits by several threads cost without a graph: threads that take the turns a store's transactions take, and
   append a log's groups.
   commits FOLDER THREADS COUNT [together] [words] [bare] [quick] runs COUNT transactions in all, and prints the nanoseconds of
   each, how often it took the clock, and how many records a group had.

   A transaction begins on the clock; takes its thread's own turn seven times, each for 200 steps of a generator; queues
   its record on the clock; and leads, where nobody does: it takes the log's turn, collects all that waits from the clock,
   appends it with two writes and two syncs to a file in FOLDER, and publishes it on the clock. Where another one leads it
   looks until that one's group has ended, and asks the clock. Then it takes its own turn once more, notes on the clock that
   it is done, and asks until all records up to its own are. A turn is a word and a place for its value, on cache lines
   apart, taken and given by two exchanges each; whoever finds it taken looks a hundred times, and then lets others run.
   Each event of the clock changes some of its lines: four to twelve, as the store's does.

   together: a leader queues its record and collects under one take of the clock. words: a begin, the epoch of a record and
   the visible one are asked of words beside the clock; no store here does so, whose core does these events on the clock.
   bare: the clock has no lines. quick: an append does nothing. */
#define _GNU_SOURCE
#include <fcntl.h>
#include <immintrin.h>
#include <pthread.h>
#include <sched.h>
#include <stdatomic.h>
#include <stdbool.h>
#include <stdint.h>
#include <stdio.h>
#include <stdlib.h>
#include <string.h>
#include <time.h>
#include <unistd.h>

#define THREADS 8
#define PUTS 7
#define STEPS 200
#define RECORD 380
#define LOOKS 100
#define GROUP_LOOKS 1024
#define EPOCHS (1u << 22)

typedef _Atomic uint64_t word;

struct line {
    _Alignas(128) word it;
};

struct turn {
    struct line taken, value;
};

static struct turn clock_turn, log_turn, own_turns[THREADS];
static struct {
    _Alignas(64) volatile uint64_t words[8];
} lines[256];
static struct line visible, collected, decided, led, epochs[THREADS];

/* The clock: what waits, the epoch of each thread's record, and how many records of each epoch are not done. */
static int queue[THREADS], waiting;
static uint64_t tid, last, shown, outcome[THREADS], *undone;

static long threads, count;
static bool together, words, bare, quick;
static int file;
static atomic_bool go;

struct thread {
    _Alignas(128) int number;
    /* The epoch of its record, once it knows it. */
    uint64_t epoch;
    uint64_t state, takes, groups;
};

static bool try_take(struct turn *turn)
{
    uint64_t home = 0;
    if (atomic_load(&turn->taken.it) || !atomic_compare_exchange_strong(&turn->taken.it, &home, 1))
        return false;
    atomic_exchange(&turn->value.it, 0);
    return true;
}

static bool take_or_wait(struct turn *turn)
{
    if (try_take(turn))
        return true;
    for (int looks = 0; looks < 2 * LOOKS && atomic_load(&turn->taken.it); looks++) {
        if (looks < LOOKS)
            _mm_pause();
        else
            sched_yield();
    }
    return false;
}

static void take(struct turn *turn)
{
    while (!take_or_wait(turn))
        ;
}

static void give(struct turn *turn)
{
    atomic_exchange(&turn->value.it, 1);
    atomic_exchange(&turn->taken.it, 0);
}

static void take_clock(struct thread *me)
{
    take(&clock_turn);
    me->takes++;
}

static void change(unsigned from, unsigned many)
{
    for (unsigned i = from; !bare && i < from + many; i++)
        lines[i % 256].words[i % 8]++;
}

static void work(struct thread *me, int steps)
{
    take(&own_turns[me->number]);
    for (int i = 0; i < steps; i++) {
        me->state ^= me->state << 13;
        me->state ^= me->state >> 7;
        me->state ^= me->state << 17;
    }
    give(&own_turns[me->number]);
}

static void enqueue(struct thread *me)
{
    change(0, 2);
    change(30 + tid++ % 16, 2);
    outcome[me->number] = 0;
    atomic_store(&epochs[me->number].it, 0);
    queue[waiting++] = me->number;
}

static int collect(int *group)
{
    int members = waiting;
    change(0, 4);
    change(30 + tid % 16, 2);
    memcpy(group, queue, members * sizeof *group);
    waiting = 0;
    return members;
}

static void append(int members)
{
    static const char bytes[RECORD * THREADS];
    ssize_t size = (ssize_t)RECORD * members;
    if (quick)
        return;
    if (write(file, bytes, size) != size || fdatasync(file) || write(file, bytes, 1) != 1 || fdatasync(file))
        exit(1);
}

/* Appends and publishes a group that was collected under the log's turn, and gives that back. */
static void end_lead(struct thread *me, const int *group, int members)
{
    atomic_fetch_add(&collected.it, 1);
    append(members);
    take_clock(me);
    change(0, 6);
    change(50 + last % 64, 3 * members);
    undone[++last] = members;
    for (int i = 0; i < members; i++) {
        outcome[group[i]] = last;
        atomic_store(&epochs[group[i]].it, last);
        if (group[i] == me->number)
            me->epoch = last;
    }
    give(&clock_turn);
    atomic_fetch_add(&decided.it, 1);
    give(&log_turn);
    atomic_store(&led.it, 0);
    me->groups++;
}

static bool may_lead(void)
{
    return !atomic_load(&led.it) && !atomic_exchange(&led.it, 1);
}

/* Takes the log's turn, where nobody leads by then. */
static bool begin_lead(void)
{
    if (take_or_wait(&log_turn))
        return true;
    atomic_store(&led.it, 0);
    return false;
}

/* Leads, or waits for the end of another one's group. */
static void lead(struct thread *me)
{
    int group[THREADS], members;
    uint64_t next = atomic_load(&collected.it) + 1;
    for (int looks = 0;; looks++) {
        if (looks == GROUP_LOOKS || atomic_load(&decided.it) >= next)
            return;
        if (may_lead())
            break;
        _mm_pause();
    }
    if (!begin_lead())
        return;
    take_clock(me);
    members = outcome[me->number] ? 0 : collect(group);
    give(&clock_turn);
    if (members > 0) {
        end_lead(me, group, members);
        return;
    }
    give(&log_turn);
    atomic_store(&led.it, 0);
}

/* Queues the record, and leads with it at once where that is to be and nobody else leads. */
static void queue_record(struct thread *me)
{
    int group[THREADS], members = 0;
    bool leads = together && may_lead() && begin_lead();
    me->epoch = 0;
    take_clock(me);
    enqueue(me);
    if (leads)
        members = collect(group);
    give(&clock_turn);
    if (leads)
        end_lead(me, group, members);
}

/* The epoch of the record, or 0. */
static uint64_t ask_epoch(struct thread *me)
{
    uint64_t epoch;
    if (words)
        return atomic_load(&epochs[me->number].it);
    take_clock(me);
    change(0, 1);
    change(50 + last % 64, 2);
    epoch = outcome[me->number];
    give(&clock_turn);
    return epoch;
}

/* Leads, or asks, until the epoch of the record is known. */
static void wait_for_epoch(struct thread *me)
{
    while (!me->epoch) {
        lead(me);
        if (!me->epoch)
            me->epoch = ask_epoch(me);
    }
}

/* Whether the epoch of the record is visible. */
static bool ask_visible(struct thread *me)
{
    bool seen;
    if (words)
        return atomic_load(&visible.it) >= me->epoch;
    take_clock(me);
    change(0, 1);
    seen = shown >= me->epoch;
    give(&clock_turn);
    return seen;
}

/* The record is done, and all records up to its own are. */
static void finish(struct thread *me)
{
    bool seen;
    take_clock(me);
    change(0, 6);
    change(10 + me->number, 4);
    undone[me->epoch]--;
    while (shown < last && undone[shown + 1] == 0)
        shown++;
    atomic_store(&visible.it, shown);
    seen = shown >= me->epoch;
    give(&clock_turn);
    while (!seen) {
        for (int looks = 0; looks < 256 && atomic_load(&visible.it) < me->epoch; looks++)
            _mm_pause();
        seen = ask_visible(me);
    }
}

static void begin(struct thread *me)
{
    if (words)
        return;
    take_clock(me);
    change(0, 6);
    change(10 + me->number, 4);
    give(&clock_turn);
}

static void *run(void *arg)
{
    struct thread *me = arg;
    while (!go)
        ;
    for (long i = 0; i < count / threads; i++) {
        begin(me);
        for (int put = 0; put < PUTS; put++)
            work(me, STEPS);
        queue_record(me);
        wait_for_epoch(me);
        work(me, STEPS / PUTS);
        finish(me);
    }
    return NULL;
}

static double seconds(void)
{
    struct timespec now;
    clock_gettime(CLOCK_MONOTONIC, &now);
    return now.tv_sec + 1e-9 * now.tv_nsec;
}

int main(int argc, char **argv)
{
    static struct thread all[THREADS];
    static pthread_t others[THREADS];
    char path[4096];
    uint64_t takes = 0, groups = 0;
    if (argc < 4)
        return 1;
    threads = atol(argv[2]);
    count = atol(argv[3]);
    for (int i = 4; i < argc; i++) {
        together |= !strcmp(argv[i], "together");
        words |= !strcmp(argv[i], "words");
        bare |= !strcmp(argv[i], "bare");
        quick |= !strcmp(argv[i], "quick");
    }
    snprintf(path, sizeof path, "%s/commits.log", argv[1]);
    file = open(path, O_RDWR | O_CREAT | O_TRUNC | O_APPEND, 0666);
    undone = calloc(EPOCHS, sizeof *undone);
    if (threads < 1 || threads > THREADS || count >= EPOCHS || file < 0 || !undone)
        return 1;
    for (long k = 0; k < threads; k++) {
        all[k].number = (int)k;
        all[k].state = (uint64_t)k + 1;
        if (pthread_create(&others[k], NULL, run, &all[k]))
            return 1;
    }
    double start = seconds();
    go = true;
    for (long k = 0; k < threads; k++) {
        pthread_join(others[k], NULL);
        takes += all[k].takes;
        groups += all[k].groups;
    }
    printf("%.0f %.2f %.2f\n", (seconds() - start) / count * 1e9, (double)takes / count, (double)count / groups);
    return unlink(path) || close(file);
}
