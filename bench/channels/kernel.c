/* Times what Linux takes to write 8 bytes to a pipe and read them, and to send 8 bytes with descriptors over a
 * socket and receive them: kernel COUNT DESCRIPTORS prints the nanoseconds of one such pair. Descriptors that
 * arrive are closed, as they would pile up otherwise; that is a part of the time. */
#include <stdint.h>
#include <stdio.h>
#include <stdlib.h>
#include <string.h>
#include <sys/socket.h>
#include <time.h>
#include <unistd.h>

#define MOST 8

static double now(void) {
    struct timespec at;
    clock_gettime(CLOCK_MONOTONIC, &at);
    return at.tv_sec * 1e9 + at.tv_nsec;
}

static void fail(const char *what) {
    perror(what);
    exit(1);
}

static void over_pipe(long count) {
    int ends[2];
    if (pipe(ends) != 0) fail("pipe");
    uint64_t word = 1;
    for (long n = 0; n < count; n++) {
        if (write(ends[1], &word, 8) != 8) fail("write");
        if (read(ends[0], &word, 8) != 8) fail("read");
    }
}

static void over_socket(long count, int descriptors) {
    int ends[2], sent[MOST], got[MOST];
    if (socketpair(AF_UNIX, SOCK_SEQPACKET, 0, ends) != 0) fail("socketpair");
    for (int n = 0; n < descriptors; n++) sent[n] = ends[0];
    uint64_t word = 1;
    struct iovec part = {&word, 8};
    size_t bytes = sizeof(int) * descriptors;
    char room[CMSG_SPACE(sizeof(int) * MOST)];
    for (long n = 0; n < count; n++) {
        struct msghdr message = {.msg_iov = &part, .msg_iovlen = 1, .msg_control = room};
        message.msg_controllen = CMSG_SPACE(bytes);
        struct cmsghdr *head = CMSG_FIRSTHDR(&message);
        head->cmsg_level = SOL_SOCKET;
        head->cmsg_type = SCM_RIGHTS;
        head->cmsg_len = CMSG_LEN(bytes);
        memcpy(CMSG_DATA(head), sent, bytes);
        if (sendmsg(ends[0], &message, 0) != 8) fail("sendmsg");
        message.msg_controllen = sizeof room;
        if (recvmsg(ends[1], &message, 0) != 8) fail("recvmsg");
        memcpy(got, CMSG_DATA(CMSG_FIRSTHDR(&message)), bytes);
        for (int k = 0; k < descriptors; k++) close(got[k]);
    }
}

int main(int argc, char **argv) {
    if (argc != 3) return 2;
    long count = atol(argv[1]);
    int descriptors = atoi(argv[2]);
    if (descriptors < 0 || descriptors > MOST) return 2;
    double begun = now();
    if (descriptors == 0) over_pipe(count);
    else over_socket(count, descriptors);
    printf("%.1f\n", (now() - begun) / count);
    return 0;
}
