/* What a take and give of a free turn is compared with: pairs of atomic exchanges that nobody contends, each thread on
   a cache line of its own.
   turns THREADS COUNT does COUNT pairs in each of THREADS threads. */
#include <pthread.h>
#include <stdatomic.h>
#include <stdio.h>
#include <stdlib.h>

static struct {
    _Alignas(128) _Atomic unsigned long word;
    unsigned long sum;
} lines[64];
static long count;

static void *pairs(void *arg)
{
    long k = (long)arg;
    for (long i = 0; i < count; i++) {
        lines[k].sum += atomic_exchange(&lines[k].word, 1);
        lines[k].sum += atomic_exchange(&lines[k].word, 0);
    }
    return NULL;
}

int main(int argc, char **argv)
{
    long threads = argc > 1 ? atol(argv[1]) : 1;
    unsigned long sum = 0;
    pthread_t others[64];
    count = argc > 2 ? atol(argv[2]) : 1;
    if (threads < 1 || threads > 64)
        return 1;
    for (long k = 0; k < threads; k++)
        if (pthread_create(&others[k], NULL, pairs, (void *)k))
            return 1;
    for (long k = 0; k < threads; k++) {
        pthread_join(others[k], NULL);
        sum += lines[k].sum;
    }
    printf("%lu\n", sum);
    return 0;
}
