/* Sends a byte to another thread and back, over two pipes, so many times: pipe ROUNDS prints how many came back. */
#include <pthread.h>
#include <stdio.h>
#include <stdlib.h>
#include <unistd.h>

static int there[2], back[2];
static long rounds;

static void *answer(void *nothing) {
    char byte;
    for (long n = 0; n < rounds; n++)
        if (read(there[0], &byte, 1) != 1 || write(back[1], &byte, 1) != 1) exit(1);
    return nothing;
}

int main(int argc, char **argv) {
    char byte = 1;
    pthread_t other;
    long n;
    if (argc != 2) return 2;
    rounds = atol(argv[1]);
    if (pipe(there) != 0 || pipe(back) != 0 || pthread_create(&other, NULL, answer, NULL) != 0) return 1;
    for (n = 0; n < rounds; n++)
        if (write(there[1], &byte, 1) != 1 || read(back[0], &byte, 1) != 1) return 1;
    printf("%ld\n", n);
    return 0;
}
