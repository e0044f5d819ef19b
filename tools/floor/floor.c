/* The floor of tools/others: what forwarding packets to players costs at least.
 *
 *   floor PORT
 *
 * One thread, one epoll and no protocol. A client begins with `P` and the number of its mount in four bytes, and sends frames (RFC 2326,
 * 10.12), or with `R` and that number, and is sent those of its mount. Each frame is one write for each reader. A frame that a reader's socket
 * doesn't take is dropped for it, and so is the rest of one of which it took a part: the reader is closed then. Ends with the process. */
#define _GNU_SOURCE
#include <arpa/inet.h>
#include <err.h>
#include <errno.h>
#include <netinet/in.h>
#include <netinet/tcp.h>
#include <stdint.h>
#include <stdio.h>
#include <stdlib.h>
#include <string.h>
#include <sys/epoll.h>
#include <sys/socket.h>
#include <unistd.h>

enum { MOUNTS = 256, READERS = 2048, MOST_EVENTS = 256, HELLO = 5, HEAD = 4, ROOM = 1 << 18 };

struct mount {
    int count, readers[READERS];
};

struct client {
    int fd, mount;
    size_t len;
    char in[];
};

static struct mount mounts[MOUNTS];
static int events;

static void watch(int fd, void *at) {
    struct epoll_event event = {.events = EPOLLIN, .data.ptr = at};
    if (epoll_ctl(events, EPOLL_CTL_ADD, fd, &event) != 0) err(1, "epoll_ctl");
}

static void come(int listener) {
    int on = 1, fd = accept4(listener, NULL, NULL, SOCK_NONBLOCK);
    if (fd < 0) return;
    setsockopt(fd, IPPROTO_TCP, TCP_NODELAY, &on, sizeof on);
    /* Only a publisher's memory is touched further than its first bytes. */
    struct client *it = malloc(sizeof *it + ROOM);
    if (it == NULL) errx(1, "out of memory");
    it->fd = fd, it->mount = -1, it->len = 0;
    watch(fd, it);
}

/* Writes a frame to each reader of a mount. */
static void pass_on(struct mount *to, const char *frame, size_t len) {
    for (int k = 0; k < to->count;) {
        ssize_t sent = send(to->readers[k], frame, len, MSG_NOSIGNAL);
        if (sent == (ssize_t)len || (sent < 0 && errno == EAGAIN)) {
            k++;
        } else {
            close(to->readers[k]);
            to->readers[k] = to->readers[--to->count];
        }
    }
}

/* Takes the first bytes of a client. */
static void hello(struct client *it) {
    uint32_t number;
    memcpy(&number, it->in + 1, sizeof number);
    number = ntohl(number);
    if (number >= MOUNTS) errx(1, "no such mount: %u", number);
    it->mount = (int)number;
    if (it->in[0] == 'R') {
        struct mount *of = &mounts[number];
        if (of->count == READERS) errx(1, "too many readers");
        of->readers[of->count++] = it->fd;
    }
    it->len -= HELLO;
    memmove(it->in, it->in + HELLO, it->len);
}

static void take(struct client *it) {
    ssize_t got = recv(it->fd, it->in + it->len, ROOM - it->len, 0);
    if (got < 0 && errno == EAGAIN) return;
    if (got <= 0) {
        /* A reader's descriptor is closed at its next frame. */
        epoll_ctl(events, EPOLL_CTL_DEL, it->fd, NULL);
        return;
    }
    it->len += (size_t)got;
    if (it->mount < 0) {
        if (it->len < HELLO) return;
        hello(it);
    }
    size_t at = 0;
    while (it->len - at >= HEAD) {
        size_t len = HEAD + ((size_t)(uint8_t)it->in[at + 2] << 8 | (uint8_t)it->in[at + 3]);
        if (it->len - at < len) break;
        pass_on(&mounts[it->mount], it->in + at, len);
        at += len;
    }
    it->len -= at;
    memmove(it->in, it->in + at, it->len);
}

int main(int count, char **words) {
    int on = 1;
    if (count != 2) errx(2, "usage: floor PORT");
    struct sockaddr_in at = {.sin_family = AF_INET, .sin_port = htons((uint16_t)atoi(words[1])), .sin_addr.s_addr = htonl(INADDR_LOOPBACK)};
    int listener = socket(AF_INET, SOCK_STREAM | SOCK_NONBLOCK, 0);
    setsockopt(listener, SOL_SOCKET, SO_REUSEADDR, &on, sizeof on);
    if (listener < 0 || bind(listener, (struct sockaddr *)&at, sizeof at) != 0 || listen(listener, 1024) != 0) err(1, "listen");
    events = epoll_create1(0);
    if (events < 0) err(1, "epoll");
    watch(listener, NULL);
    for (;;) {
        struct epoll_event some[MOST_EVENTS];
        int found = epoll_wait(events, some, MOST_EVENTS, -1);
        for (int k = 0; k < found; k++) {
            if (some[k].data.ptr == NULL) come(listener);
            else take(some[k].data.ptr);
        }
    }
}
