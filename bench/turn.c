/* Takes a pthread mutex again and again, as bench_turn does with the turn: prints the nanoseconds of one taking. */
#include <pthread.h>
#include <stdint.h>
#include <stdio.h>

#include "timing.h"

enum { MOST_THREADS = 64 };

static pthread_mutex_t lock = PTHREAD_MUTEX_INITIALIZER;
static uint64_t count, rounds;

static void *work(void *unused) {
    for (uint64_t i = 0; i < rounds; i++) {
        pthread_mutex_lock(&lock);
        count++;
        pthread_mutex_unlock(&lock);
    }
    return unused;
}

int main(int argc, char **argv) {
    pthread_t threads[MOST_THREADS];
    int wanted = argc == 3 ? atoi(argv[1]) : 0;
    if (wanted < 1 || wanted > MOST_THREADS)
        return 2;
    rounds = strtoull(argv[2], NULL, 10);
    double start = now();
    for (int i = 0; i < wanted; i++)
        if (pthread_create(&threads[i], NULL, work, NULL))
            return 1;
    for (int i = 0; i < wanted; i++)
        pthread_join(threads[i], NULL);
    printf("%.0f\n", (now() - start) * 1e9 / (double)count);
    return count != (uint64_t)wanted * rounds;
}
