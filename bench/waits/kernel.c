/* Times a message of eight bytes to another thread and back, over two pipes: prints the nanoseconds of one
   message, for so many round trips. */
#include <pthread.h>
#include <stdio.h>
#include <stdlib.h>
#include <time.h>
#include <unistd.h>

static int there[2], back[2];
static long rounds;

static void pass(int from, int to)
{
    long word;
    if (from >= 0 && read(from, &word, sizeof word) != sizeof word)
        exit(1);
    if (to >= 0 && write(to, &word, sizeof word) != sizeof word)
        exit(1);
}

static void *answer(void *nothing)
{
    for (long n = 0; n < rounds; n++)
        pass(there[0], back[1]);
    return nothing;
}

int main(int count, char **words)
{
    struct timespec begun, ended;
    pthread_t other;
    rounds = count > 1 ? atol(words[1]) : 1;
    if (pipe(there) || pipe(back) || pthread_create(&other, NULL, answer, NULL))
        return 1;
    clock_gettime(CLOCK_MONOTONIC, &begun);
    for (long n = 0; n < rounds; n++) {
        pass(-1, there[1]);
        pass(back[0], -1);
    }
    clock_gettime(CLOCK_MONOTONIC, &ended);
    double taken = (ended.tv_sec - begun.tv_sec) * 1e9 + (ended.tv_nsec - begun.tv_nsec);
    printf("%.1f\n", taken / (2.0 * rounds));
    return 0;
}
