/* A bare pump for tools/pull-cost: what it costs to pass bytes from one connection to another.
 *
 *   pump SOURCE_PORT TARGET_PORT
 *
 * It asks cameras.c to play and sink.c to record, and from then on only polls, reads up to 64 KiB and writes them, without a look at
 * them, until a connection ends. */
#include <arpa/inet.h>
#include <err.h>
#include <errno.h>
#include <fcntl.h>
#include <netinet/tcp.h>
#include <poll.h>
#include <signal.h>
#include <stdlib.h>
#include <string.h>
#include <sys/socket.h>
#include <unistd.h>

static char block[65536];

static int connect_to(const char *port) {
    struct sockaddr_in at = {.sin_family = AF_INET, .sin_port = htons((uint16_t)atoi(port)), .sin_addr.s_addr = htonl(INADDR_LOOPBACK)};
    int fd = socket(AF_INET, SOCK_STREAM, 0), on = 1;
    if (fd < 0 || connect(fd, (struct sockaddr *)&at, sizeof at) != 0) err(1, "connect");
    setsockopt(fd, IPPROTO_TCP, TCP_NODELAY, &on, sizeof on);
    return fd;
}

/* Writes all bytes. A connection that is closed ends the pump. */
static void write_all(int fd, const char *bytes, size_t len) {
    while (len > 0) {
        ssize_t sent = write(fd, bytes, len);
        if (sent > 0) {
            bytes += sent;
            len -= (size_t)sent;
        } else if (errno == EAGAIN) {
            struct pollfd room = {.fd = fd, .events = POLLOUT};
            poll(&room, 1, -1);
        } else {
            exit(0);
        }
    }
}

/* Sends a request, and reads up to the end of its reply, which has no body. */
static void ask(int fd, const char *request) {
    char last[4] = "";
    write_all(fd, request, strlen(request));
    while (memcmp(last, "\r\n\r\n", 4) != 0) {
        memmove(last, last + 1, 3);
        if (read(fd, last + 3, 1) != 1) errx(1, "no reply");
    }
}

static void pass(int source, int target) {
    struct pollfd both[] = {{.fd = source, .events = POLLIN}, {.fd = target, .events = POLLIN}};
    for (;;) {
        if (poll(both, 2, -1) < 0) err(1, "poll");
        if (both[1].revents != 0) return;
        ssize_t got = read(source, block, sizeof block);
        if (got > 0) write_all(target, block, (size_t)got);
        else if (got == 0 || errno != EAGAIN) return;
    }
}

int main(int count, char **words) {
    if (count != 3) errx(2, "usage: pump SOURCE_PORT TARGET_PORT");
    signal(SIGPIPE, SIG_IGN);
    int source = connect_to(words[1]), target = connect_to(words[2]);
    ask(source, "SETUP rtsp://cam/video RTSP/1.0\r\nCSeq: 1\r\nTransport: RTP/AVP/TCP;unicast;interleaved=0-1\r\n\r\n");
    ask(target, "ANNOUNCE rtsp://sink/0 RTSP/1.0\r\nCSeq: 1\r\n\r\n");
    ask(target, "SETUP rtsp://sink/0/0 RTSP/1.0\r\nCSeq: 2\r\nTransport: RTP/AVP/TCP;unicast;interleaved=0-1;mode=record\r\n\r\n");
    ask(target, "RECORD rtsp://sink/0 RTSP/1.0\r\nCSeq: 3\r\n\r\n");
    ask(source, "PLAY rtsp://cam RTSP/1.0\r\nCSeq: 2\r\n\r\n");
    fcntl(source, F_SETFL, O_NONBLOCK);
    fcntl(target, F_SETFL, O_NONBLOCK);
    pass(source, target);
    return 0;
}
