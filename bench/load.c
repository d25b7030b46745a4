/* Keeps connections to a server of this machine busy with sends of 1 KiB, and tells how they went.
 *
 * usage: load PORT PID CONNECTIONS SECONDS
 *
 * Each connection sends to the queue q, waits for the response, and sends again. The time begins once each has had a
 * response, and ends so many seconds later. One line says of it: how many responses came, in how many seconds; the
 * median, the 99th of a hundred and the greatest of the times from a request to its response, in microseconds; the
 * microseconds that the process PID, the server, took of its own and in the kernel, and those that this one took in
 * all. The status is 1 where a response is none to a send that was accepted, a connection ends, or one has no response
 * a minute behind the begin.
 */
#define _GNU_SOURCE
#include <arpa/inet.h>
#include <errno.h>
#include <fcntl.h>
#include <netinet/tcp.h>
#include <stdarg.h>
#include <stdbool.h>
#include <stdint.h>
#include <stdio.h>
#include <stdlib.h>
#include <string.h>
#include <sys/epoll.h>
#include <sys/resource.h>
#include <sys/socket.h>
#include <time.h>
#include <unistd.h>

enum { BODY = 1024, MOST = 1 << 23, AT_ONCE = 256, PATIENCE = 60 };

struct connection {
    int socket;
    unsigned came; /* bytes of the response so far */
    double begun;  /* when the request was written */
    bool has_answered;
    char response[512];
};

static char request[BODY + 256];
static size_t length;
static uint32_t *took; /* of each response in time, in microseconds */
static size_t count;

static void fail(const char *what, ...) {
    va_list words;
    va_start(words, what);
    fputs("load: ", stderr);
    vfprintf(stderr, what, words);
    fputc('\n', stderr);
    exit(1);
}

static double now(void) {
    struct timespec time;
    clock_gettime(CLOCK_MONOTONIC, &time);
    return time.tv_sec + time.tv_nsec / 1e9;
}

static double microseconds(const struct timeval *time) {
    return time->tv_sec * 1e6 + time->tv_usec;
}

/* The microseconds that a process has taken of its own and in the kernel. */
static void used(int pid, double *own, double *kernel) {
    char path[64], line[1024];
    snprintf(path, sizeof path, "/proc/%d/stat", pid);
    int file = open(path, O_RDONLY);
    ssize_t size = file < 0 ? -1 : read(file, line, sizeof line - 1);
    if (size <= 0) fail("%s: %s", path, strerror(errno));
    line[size] = 0;
    close(file);
    unsigned long ticks, ticks_in_kernel;
    const char *behind_name = strrchr(line, ')');
    if (!behind_name || sscanf(behind_name, ") %*c %*d %*d %*d %*d %*d %*u %*u %*u %*u %*u %lu %lu", &ticks,
                               &ticks_in_kernel) != 2)
        fail("%s can't be read", path);
    *own = ticks * 1e6 / sysconf(_SC_CLK_TCK);
    *kernel = ticks_in_kernel * 1e6 / sysconf(_SC_CLK_TCK);
}

static void send_again(struct connection *it) {
    it->came = 0;
    it->begun = now();
    if (write(it->socket, request, length) != (ssize_t)length) fail("a request can't be written: %s", strerror(errno));
}

static void open_one(struct connection *it, int port, int poll) {
    struct sockaddr_in place = {.sin_family = AF_INET, .sin_port = htons(port)};
    place.sin_addr.s_addr = htonl(INADDR_LOOPBACK);
    int at_once = 1;
    it->socket = socket(AF_INET, SOCK_STREAM, 0);
    if (it->socket < 0 || connect(it->socket, (struct sockaddr *)&place, sizeof place))
        fail("a connection can't be had: %s", strerror(errno));
    setsockopt(it->socket, IPPROTO_TCP, TCP_NODELAY, &at_once, sizeof at_once);
    fcntl(it->socket, F_SETFL, O_NONBLOCK);
    struct epoll_event event = {.events = EPOLLIN, .data.ptr = it};
    if (epoll_ctl(poll, EPOLL_CTL_ADD, it->socket, &event)) fail("epoll: %s", strerror(errno));
}

/* Whether the response is whole behind what has come now. */
static bool is_whole(struct connection *it) {
    ssize_t size = read(it->socket, it->response + it->came, sizeof it->response - 1 - it->came);
    if (size < 0 && errno == EAGAIN) return false;
    if (size <= 0) fail("a connection ended: %s", size ? strerror(errno) : "closed by the server");
    it->came += size;
    it->response[it->came] = 0;
    if (!strstr(it->response, "\r\n\r\n")) {
        if (it->came == sizeof it->response - 1) fail("the head of a response is too long");
        return false;
    }
    if (strncmp(it->response, "HTTP/1.1 201 ", 13)) fail("a send was answered %s", it->response);
    return true;
}

static int by_size(const void *one, const void *other) {
    uint32_t a = *(const uint32_t *)one, b = *(const uint32_t *)other;
    return (a > b) - (a < b);
}

/* Takes responses and sends again, until all have had one or the time has come. */
static void go_round(int poll, unsigned *silent, double until) {
    struct epoll_event events[AT_ONCE];
    double begun = now();
    while (*silent || (until && now() < until)) {
        int ready = epoll_wait(poll, events, AT_ONCE, 100);
        if (ready < 0 && errno != EINTR) fail("epoll: %s", strerror(errno));
        if (!until && now() > begun + PATIENCE) fail("%u connections without a response in %d seconds", *silent, PATIENCE);
        for (int k = 0; k < ready; k++) {
            struct connection *it = events[k].data.ptr;
            if (!is_whole(it)) continue;
            if (!it->has_answered) {
                it->has_answered = true;
                --*silent;
            }
            if (until && count < MOST) took[count++] = (now() - it->begun) * 1e6;
            send_again(it);
        }
    }
}

int main(int words, char **word) {
    if (words != 5) fail("usage: load PORT PID CONNECTIONS SECONDS");
    int port = atoi(word[1]), pid = atoi(word[2]);
    unsigned many = atoi(word[3]), silent = many;
    double seconds = atof(word[4]);
    length = snprintf(request, sizeof request, "POST /q/messages HTTP/1.1\r\nHost: localhost\r\nContent-Length: %d\r\n\r\n",
                      BODY);
    memset(request + length, 'x', BODY);
    length += BODY;
    took = malloc(MOST * sizeof *took);
    struct connection *all = calloc(many, sizeof *all);
    int poll = epoll_create1(0);
    if (!took || !all || poll < 0 || !many) fail("too little memory, or no connections");
    for (unsigned k = 0; k < many; k++) open_one(&all[k], port, poll);
    for (unsigned k = 0; k < many; k++) send_again(&all[k]);
    go_round(poll, &silent, 0);

    double own, kernel, own_behind, kernel_behind;
    struct rusage before, behind;
    getrusage(RUSAGE_SELF, &before);
    used(pid, &own, &kernel);
    double begun = now();
    go_round(poll, &silent, begun + seconds);
    double lasted = now() - begun;
    used(pid, &own_behind, &kernel_behind);
    getrusage(RUSAGE_SELF, &behind);
    if (!count) fail("no response in time");
    double load = microseconds(&behind.ru_utime) + microseconds(&behind.ru_stime);
    load -= microseconds(&before.ru_utime) + microseconds(&before.ru_stime);
    qsort(took, count, sizeof *took, by_size);
    printf("%zu %.6f %u %u %u %.0f %.0f %.0f\n", count, lasted, took[count / 2], took[count - 1 - count / 100],
           took[count - 1], own_behind - own, kernel_behind - kernel, load);
    return 0;
}
