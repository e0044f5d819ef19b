/* RTSP 1.0 servers for tools/pull-cost: what cameras.c and sink.c share. One thread and one epoll serve all clients. */
#ifndef RTSP_H
#define RTSP_H

#include <arpa/inet.h>
#include <err.h>
#include <errno.h>
#include <netinet/tcp.h>
#include <signal.h>
#include <stdint.h>
#include <stdio.h>
#include <stdlib.h>
#include <string.h>
#include <sys/epoll.h>
#include <sys/socket.h>
#include <time.h>
#include <unistd.h>

enum { ROOM = 1 << 18, MOST_CLIENTS = 1024, MOST_EVENTS = 64, FRAME_HEAD = 4, RTP_HEAD = 12, SLICE_HEAD = 4, MARK_LEN = 17 };

/* In the payload: after the slice's head one letter, and the send time in hexadecimal digits. So there are no zero bytes, which
 * would be a start code for ffmpeg. */
enum { MARK_AT = FRAME_HEAD + RTP_HEAD + SLICE_HEAD };

struct client {
    int fd;
    /* Ready: it plays, or a packet of it has come. */
    int is_open, is_ready;
    /* The next RTP sequence number, sent or expected. */
    int has_next;
    uint16_t next;
    /* How many counted packets of it came. */
    size_t counted;
    /* What was read and isn't handled yet, with a zero byte after it. */
    size_t len;
    char bytes[ROOM + 1];
};

static struct client *clients[MOST_CLIENTS];
static int client_count;

/* Stands for the listening socket in events. */
static struct client listener_mark;

static inline uint64_t now_ns(void) {
    struct timespec at;
    clock_gettime(CLOCK_MONOTONIC, &at);
    return (uint64_t)at.tv_sec * 1000000000u + (uint64_t)at.tv_nsec;
}

static inline void watch(int poll, int fd, struct client *it) {
    struct epoll_event event = {.events = EPOLLIN, .data.ptr = it};
    if (epoll_ctl(poll, EPOLL_CTL_ADD, fd, &event) != 0) err(1, "epoll_ctl");
}

/* Listens on a free port, and prints it. */
static inline int listen_somewhere(void) {
    struct sockaddr_in at = {.sin_family = AF_INET, .sin_addr.s_addr = htonl(INADDR_LOOPBACK)};
    socklen_t len = sizeof at;
    int fd = socket(AF_INET, SOCK_STREAM, 0);
    if (fd < 0 || bind(fd, (struct sockaddr *)&at, len) != 0 || listen(fd, 256) != 0) err(1, "listen");
    getsockname(fd, (struct sockaddr *)&at, &len);
    signal(SIGPIPE, SIG_IGN);
    setvbuf(stdout, NULL, _IOLBF, 0);
    printf("port %d\n", ntohs(at.sin_port));
    return fd;
}

static inline void accept_client(int poll, int listener) {
    int on = 1;
    struct client *it = calloc(1, sizeof *it);
    if (it == NULL || client_count == MOST_CLIENTS) errx(1, "too many clients");
    it->fd = accept(listener, NULL, NULL);
    if (it->fd < 0) err(1, "accept");
    setsockopt(it->fd, IPPROTO_TCP, TCP_NODELAY, &on, sizeof on);
    it->is_open = 1;
    clients[client_count++] = it;
    watch(poll, it->fd, it);
}

static inline void close_client(struct client *it) {
    if (it->is_open) close(it->fd);
    it->is_open = it->is_ready = 0;
}

static inline void send_all(struct client *it, const char *bytes, size_t len) {
    while (len > 0) {
        ssize_t sent = send(it->fd, bytes, len, 0);
        if (sent < 0 && errno == EINTR) continue;
        if (sent < 0) {
            close_client(it);
            return;
        }
        bytes += sent;
        len -= (size_t)sent;
    }
}

/* The length of a frame, or of a request and its body, at some bytes; 0 if it isn't whole. */
static inline size_t unit_len(const char *bytes, size_t len) {
    if (len >= FRAME_HEAD && bytes[0] == '$') {
        size_t whole = FRAME_HEAD + ((size_t)(uint8_t)bytes[2] << 8 | (uint8_t)bytes[3]);
        return whole <= len ? whole : 0;
    }
    const char *end = bytes[0] == '$' ? NULL : memmem(bytes, len, "\r\n\r\n", 4);
    if (end == NULL) return 0;
    const char *body = strcasestr(bytes, "Content-Length:");
    size_t whole = (size_t)(end + 4 - bytes) + (body != NULL && body < end ? strtoul(body + 15, NULL, 10) : 0);
    return whole <= len ? whole : 0;
}

/* Answers a request with 200. SETUP gets its Transport back, and each reply has a session. */
static inline void answer(struct client *it, const char *request, const char *more, const char *body) {
    char reply[2048], transport[256] = "";
    const char *cseq = strcasestr(request, "CSeq:"), *asked = strcasestr(request, "Transport:");
    if (strncmp(request, "SETUP", 5) == 0 && asked != NULL) sscanf(asked, "%250[^\r]", transport);
    int len = snprintf(reply, sizeof reply, "RTSP/1.0 200 OK\r\nCSeq: %lu\r\nSession: 1234;timeout=60\r\n%s%s%sContent-Length: %zu\r\n\r\n%s",
                       cseq == NULL ? 0 : strtoul(cseq + 5, NULL, 10), transport, transport[0] ? "\r\n" : "", more, strlen(body), body);
    send_all(it, reply, (size_t)len);
}

#endif
