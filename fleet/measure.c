// measure echo PORT: sends each datagram that comes to 127.0.0.1:PORT back, and no more. SIGTERM ends it; it prints how many, and the seconds
// of the processor.
// measure load OWN PORT WINDOW SECONDS FILE: sends the datagrams of FILE (each behind its length, 2 bytes) to 127.0.0.1:PORT, from and to
// 127.0.0.1:OWN, so many at a time without one that has come, and prints how many came in which time.
// Both take and send 64 at a time, as the router does: fleet/measure compares the two.
#define _GNU_SOURCE
#include <arpa/inet.h>
#include <errno.h>
#include <netinet/in.h>
#include <signal.h>
#include <stdint.h>
#include <stdio.h>
#include <stdlib.h>
#include <string.h>
#include <sys/epoll.h>
#include <sys/socket.h>
#include <time.h>
#include <unistd.h>

enum { BATCH = 64, SIZE = 1500, MOST = 4096 };

static volatile sig_atomic_t is_ended;
static uint8_t buffers[BATCH][SIZE], datagrams[MOST][SIZE];
static size_t lengths[MOST];
static struct iovec parts[BATCH];
static struct sockaddr_in places[BATCH];
static struct mmsghdr headers[BATCH];

static void end(int signal) {
    (void)signal;
    is_ended = 1;
}

static void stop(const char *what) {
    fprintf(stderr, "measure: %s: %s\n", what, strerror(errno));
    exit(1);
}

static double seconds(clockid_t clock) {
    struct timespec time;
    clock_gettime(clock, &time);
    return (double)time.tv_sec + (double)time.tv_nsec / 1e9;
}

static struct sockaddr_in at(const char *port) {
    return (struct sockaddr_in){.sin_family = AF_INET, .sin_port = htons((uint16_t)atoi(port)), .sin_addr.s_addr = htonl(INADDR_LOOPBACK)};
}

static int bound(const char *port) {
    struct sockaddr_in place = at(port);
    int handle = socket(AF_INET, SOCK_DGRAM, 0), bytes = 1 << 20;
    if (handle < 0 || bind(handle, (struct sockaddr *)&place, sizeof place)) stop(port);
    setsockopt(handle, SOL_SOCKET, SO_RCVBUF, &bytes, sizeof bytes);
    return handle;
}

static void prepare(void) {
    for (int k = 0; k < BATCH; k++) {
        parts[k] = (struct iovec){buffers[k], SIZE};
        headers[k].msg_hdr = (struct msghdr){.msg_name = &places[k], .msg_namelen = sizeof places[k], .msg_iov = &parts[k], .msg_iovlen = 1};
    }
}

static int echo(const char *port) {
    int handle = bound(port), poll = epoll_create1(0);
    struct epoll_event event = {.events = EPOLLIN};
    uint64_t count = 0;
    if (poll < 0 || epoll_ctl(poll, EPOLL_CTL_ADD, handle, &event)) stop("epoll");
    signal(SIGTERM, end);
    while (!is_ended) {
        if (epoll_wait(poll, &event, 1, 100) < 1) continue;
        prepare();
        int came = recvmmsg(handle, headers, BATCH, MSG_DONTWAIT, NULL);
        for (int k = 0; k < came; k++) parts[k].iov_len = headers[k].msg_len;
        for (int done = 0; done < came;) {
            int sent = sendmmsg(handle, headers + done, (unsigned)(came - done), MSG_DONTWAIT);
            done += sent > 0 ? sent : 1;
        }
        count += came > 0 ? (uint64_t)came : 0;
    }
    printf("datagrams=%llu cpu=%.6f\n", (unsigned long long)count, seconds(CLOCK_PROCESS_CPUTIME_ID));
    return 0;
}

static int load(char **words) {
    int handle = bound(words[0]), window = atoi(words[2]), under_way = 0;
    struct sockaddr_in to = at(words[1]);
    struct timeval wait = {.tv_usec = 20000};
    uint64_t came = 0, lost = 0;
    uint8_t front[2];
    size_t count = 0, next = 0;
    FILE *file = fopen(words[4], "r");
    if (!file || setsockopt(handle, SOL_SOCKET, SO_RCVTIMEO, &wait, sizeof wait)) stop(words[4]);
    for (; count < MOST && fread(front, 1, 2, file) == 2; count++) {
        lengths[count] = (size_t)front[0] << 8 | front[1];
        if (lengths[count] > SIZE || fread(datagrams[count], 1, lengths[count], file) != lengths[count]) stop(words[4]);
    }
    double begun = seconds(CLOCK_MONOTONIC), limit = atof(words[3]);
    while (seconds(CLOCK_MONOTONIC) - begun < limit) {
        while (under_way + BATCH <= window) {
            prepare();
            for (int k = 0; k < BATCH; k++, next = (next + 1) % count) {
                places[k] = to;
                parts[k] = (struct iovec){datagrams[next], lengths[next]};
            }
            int sent = sendmmsg(handle, headers, BATCH, 0);
            under_way += sent > 0 ? sent : 0;
        }
        prepare();
        int got = recvmmsg(handle, headers, BATCH, MSG_WAITFORONE, NULL);
        if (got > 0) {
            came += (uint64_t)got;
            under_way -= got;
        } else {
            lost += (uint64_t)under_way;
            under_way = 0;
        }
    }
    printf("came=%llu lost=%llu seconds=%.3f\n", (unsigned long long)came, (unsigned long long)lost, seconds(CLOCK_MONOTONIC) - begun);
    return 0;
}

int main(int count, char **words) {
    if (count == 3 && !strcmp(words[1], "echo")) return echo(words[2]);
    if (count == 7 && !strcmp(words[1], "load")) return load(words + 2);
    fprintf(stderr, "usage: measure echo PORT | measure load OWN PORT WINDOW SECONDS FILE\n");
    return 2;
}
