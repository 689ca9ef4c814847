/* Times an eventfd that is watched once: epoll is told to watch it for one event, it is written, epoll tells of
   it, and it is read. Prints the nanoseconds of one round, for so many. */
#include <stdint.h>
#include <stdio.h>
#include <stdlib.h>
#include <sys/epoll.h>
#include <sys/eventfd.h>
#include <time.h>
#include <unistd.h>

int main(int count, char **words)
{
    struct timespec begun, ended;
    struct epoll_event watched = {.events = 0}, told;
    uint64_t one = 1, read_back;
    long rounds = count > 1 ? atol(words[1]) : 1;
    int event = eventfd(0, 0), port = epoll_create1(0);
    if (event < 0 || port < 0 || epoll_ctl(port, EPOLL_CTL_ADD, event, &watched))
        return 1;
    watched.events = EPOLLIN | EPOLLONESHOT;
    clock_gettime(CLOCK_MONOTONIC, &begun);
    for (long n = 0; n < rounds; n++) {
        if (epoll_ctl(port, EPOLL_CTL_MOD, event, &watched)
            || write(event, &one, sizeof one) != sizeof one
            || epoll_wait(port, &told, 1, 0) != 1
            || read(event, &read_back, sizeof read_back) != sizeof read_back)
            return 1;
    }
    clock_gettime(CLOCK_MONOTONIC, &ended);
    double taken = (ended.tv_sec - begun.tv_sec) * 1e9 + (ended.tv_nsec - begun.tv_nsec);
    printf("%.1f\n", taken / rounds);
    return 0;
}
