/* A server that does nothing for a command but answer it by `:1`: it shows how much of a rate is the
 * client's.
 *     gcc -O2 -pthread bench/idle.c -o idle && ./idle PORT THREADS POLL_MICROSECONDS WORK_NANOSECONDS
 * Each thread asks the system for which of its connections bytes came (epoll), after it polled for
 * so long, and spends the work's time on each command. OTHER=PORT bench/redis.sh measures it beside
 * Redis in place of ours. It takes each `*` for a command, so keys and members must have none.
 */
#define _GNU_SOURCE
#include <errno.h>
#include <fcntl.h>
#include <netinet/in.h>
#include <netinet/tcp.h>
#include <pthread.h>
#include <stdio.h>
#include <stdlib.h>
#include <string.h>
#include <sys/epoll.h>
#include <sys/socket.h>
#include <time.h>
#include <unistd.h>

enum { MOST_THREADS = 64, EVENTS = 256 };

static long poll_time, work_time;

static long now(void) {
    struct timespec at;
    clock_gettime(CLOCK_MONOTONIC, &at);
    return at.tv_sec * 1000000000L + at.tv_nsec;
}

/* Answers what came over a connection. */
static void answer(int set, int socket) {
    char came[16384], answers[65536];
    ssize_t count = recv(socket, came, sizeof came, 0);
    if (count <= 0) {
        if (count == 0 || errno != EAGAIN) {
            epoll_ctl(set, EPOLL_CTL_DEL, socket, NULL);
            close(socket);
        }
        return;
    }
    size_t due = 0;
    for (ssize_t at = 0; at < count; at++) {
        if (came[at] != '*') {
            continue;
        }
        long end = now() + work_time;
        while (work_time > 0 && now() < end) {
        }
        memcpy(answers + due, ":1\r\n", 4);
        due += 4;
    }
    if (due > 0) {
        send(socket, answers, due, MSG_NOSIGNAL);
    }
}

static void *serve(void *of) {
    int set = (int)(long)of;
    struct epoll_event events[EVENTS];
    for (;;) {
        int ready = epoll_wait(set, events, EVENTS, 0);
        long end = now() + poll_time;
        while (ready == 0 && poll_time > 0 && now() < end) {
            ready = epoll_wait(set, events, EVENTS, 0);
        }
        if (ready == 0) {
            ready = epoll_wait(set, events, EVENTS, 100);
        }
        for (int at = 0; at < ready; at++) {
            answer(set, events[at].data.fd);
        }
    }
    return NULL;
}

int main(int count, char **words) {
    int sets[MOST_THREADS], one = 1;
    if (count != 5 || atoi(words[2]) < 1 || atoi(words[2]) > MOST_THREADS) {
        fprintf(stderr, "idle PORT THREADS POLL_MICROSECONDS WORK_NANOSECONDS\n");
        return 2;
    }
    unsigned threads = (unsigned)atoi(words[2]);
    poll_time = atol(words[3]) * 1000;
    work_time = atol(words[4]);
    int listener = socket(AF_INET, SOCK_STREAM, 0);
    setsockopt(listener, SOL_SOCKET, SO_REUSEADDR, &one, sizeof one);
    struct sockaddr_in at = {.sin_family = AF_INET, .sin_port = htons(atoi(words[1])), .sin_addr.s_addr = htonl(INADDR_LOOPBACK)};
    if (bind(listener, (void *)&at, sizeof at) || listen(listener, 512)) {
        perror("idle");
        return 1;
    }
    for (unsigned number = 0; number < threads; number++) {
        pthread_t thread;
        sets[number] = epoll_create1(0);
        pthread_create(&thread, NULL, serve, (void *)(long)sets[number]);
    }
    for (unsigned number = 0;; number++) {
        int socket = accept(listener, NULL, NULL);
        if (socket < 0) {
            continue;
        }
        setsockopt(socket, IPPROTO_TCP, TCP_NODELAY, &one, sizeof one);
        fcntl(socket, F_SETFL, O_NONBLOCK);
        struct epoll_event event = {.events = EPOLLIN | EPOLLET, .data.fd = socket};
        epoll_ctl(sets[number % threads], EPOLL_CTL_ADD, socket, &event);
    }
}
