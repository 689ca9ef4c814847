/* Times what Linux takes to write a number to an eventfd and read it: kernel COUNT prints the
 * nanoseconds of one such pair. */
#include <stdint.h>
#include <stdio.h>
#include <stdlib.h>
#include <sys/eventfd.h>
#include <time.h>
#include <unistd.h>

static double now(void) {
    struct timespec at;
    clock_gettime(CLOCK_MONOTONIC, &at);
    return at.tv_sec * 1e9 + at.tv_nsec;
}

static void fail(const char *what) {
    perror(what);
    exit(1);
}

int main(int argc, char **argv) {
    if (argc != 2) return 2;
    long count = atol(argv[1]);
    int event = eventfd(0, 0);
    if (event < 0) fail("eventfd");
    uint64_t word = 1;
    double begun = now();
    for (long n = 0; n < count; n++) {
        if (write(event, &word, 8) != 8) fail("write");
        if (read(event, &word, 8) != 8) fail("read");
    }
    printf("%.1f\n", (now() - begun) / count);
    return 0;
}
