/* Cameras and players for tools/try-cluster: one thread and one epoll drive all of them.
 *
 *   fleet HOST CAMERAS_PORT PLAYERS_PORT MOUNTS PLAYERS RATE BYTES
 *
 * Each camera publishes a mount `cam-000` and further, RATE packets of BYTES a second, and each player plays one of them. A connection that
 * is refused or ends is tried again after 300 ms. Every second peer begins with OPTIONS. A packet's RTP timestamp is its number in its
 * mount, and its sequence number the last 16 bits of it, so that players count what is lost. Commands on standard input:
 *
 *   mark              the counts begin anew
 *   report            prints a line for each camera and player, and `end`
 *   ask RATE          RATE times a second another peer asks for a mount by DESCRIBE and leaves; 0 ends it
 *   unknown COUNT     COUNT such peers ask for names that no camera has, 256 at a time; prints `unknown done` at their end
 *
 * It prints `playing` once all players have had a packet, and ends when standard input ends. */
#define _GNU_SOURCE
#include <arpa/inet.h>
#include <err.h>
#include <errno.h>
#include <fcntl.h>
#include <netinet/tcp.h>
#include <stdarg.h>
#include <stdint.h>
#include <stdio.h>
#include <stdlib.h>
#include <string.h>
#include <sys/epoll.h>
#include <sys/prctl.h>
#include <sys/socket.h>
#include <time.h>
#include <unistd.h>

/* Times are in milliseconds. A 404 counts as one of a live mount if the mount's camera is still connected CERTAIN later. */
enum { RETRY = 300, REPLY_WAIT = 10000, KEEPALIVE = 10000, CERTAIN = 1000, BLACK = 500, STEP = 5 };

enum { ROOM = 4096, FRAME_HEAD = 4, RTP_HEAD = 12, MOST_BYTES = 2048, MOST_ASKERS = 512, SIDE_BY_SIDE = 256, MOST_DOUBTS = 65536, MOST_EVENTS = 256 };

enum kind { CAMERA, PLAYER, ASKER };

/* What a peer waits for: its next try, its connection, the reply to a request; or it runs. */
enum step { IDLE, WAITS, CONNECTS, OPTIONS, ASKS, SETS_UP, BEGINS, RUNS };

struct mount {
    /* The camera has announced it; how often it did; the next packet's number. */
    int is_live;
    unsigned turn;
    uint32_t number;
    uint64_t refused_live;
};

struct peer {
    enum kind kind;
    enum step step;
    int mount, place, fd, has_next, has_had, was_live;
    unsigned turn;
    uint32_t next;
    uint64_t due, alive_due, last;
    /* Since `mark`: packets lost in a connection, missed between two, ends and refusals; the longest time without a packet, and the end of
     * the last time of more than BLACK. */
    uint64_t lost, missed, closes, refused, gap, gap_end;
    char session[32];
    size_t len, unsent;
    char in[ROOM + 1], out[FRAME_HEAD + MOST_BYTES];
};

/* A 404 that may be one of a live mount. */
struct doubt {
    int mount;
    unsigned turn;
    uint64_t due;
};

/* What the askers were answered since `mark`; the longest of these answers. */
struct asked {
    uint64_t ok, missing, other, closed, slowest;
};

static struct mount *mounts;
static struct peer *peers, *askers;
static struct doubt doubts[MOST_DOUBTS];
static struct asked asked;
static size_t first_doubt, doubt_count;
static int mount_count, player_count, rate, bytes, events, has_all;
static double ask_rate;
static uint64_t marked, unknown_left, asker_count, ask_next;
static struct sockaddr_in cameras_at, players_at;
static const char *host;

static uint64_t now_ms(void) {
    struct timespec at;
    clock_gettime(CLOCK_MONOTONIC, &at);
    return (uint64_t)at.tv_sec * 1000 + (uint64_t)at.tv_nsec / 1000000;
}

static void say(struct peer *it, const char *method, const char *track, const char *more, const char *body) {
    char text[1024], session[64] = "", length[64] = "", name[32] = "";
    if (it->session[0]) snprintf(session, sizeof session, "Session: %s\r\n", it->session);
    if (body[0]) snprintf(length, sizeof length, "Content-Length: %zu\r\n", strlen(body));
    if (it->mount >= 0) snprintf(name, sizeof name, "cam-%03d", it->mount);
    else snprintf(name, sizeof name, "nothing-%lu", (unsigned long)asker_count);
    int port = ntohs(it->kind == CAMERA ? cameras_at.sin_port : players_at.sin_port);
    int len = snprintf(text, sizeof text, "%s rtsp://%s:%d/%s%s RTSP/1.0\r\nCSeq: 1\r\n%s%s%s\r\n%s", method, host, port, name, track,
                       session, more, length, body);
    /* It fits in the send buffer: a peer has one unanswered request. */
    if (send(it->fd, text, (size_t)len, MSG_NOSIGNAL | MSG_DONTWAIT) != len) errno = 0;
    it->due = now_ms() + REPLY_WAIT;
}

static void watch(struct peer *it, int how, uint32_t what) {
    struct epoll_event event = {.events = what, .data.ptr = it};
    if (epoll_ctl(events, how, it->fd, &event) != 0) err(1, "epoll_ctl");
}

/* Closes the connection. The next try comes after RETRY. */
static void leave(struct peer *it) {
    if (it->fd >= 0) close(it->fd);
    if (it->kind == CAMERA) mounts[it->mount].is_live = 0;
    if (it->step == RUNS) it->closes++;
    it->fd = -1;
    it->step = it->kind == ASKER ? IDLE : WAITS;
    it->due = now_ms() + RETRY;
    it->session[0] = 0;
    it->len = it->unsent = 0;
}

static void come(struct peer *it) {
    int on = 1;
    struct sockaddr_in *at = it->kind == CAMERA ? &cameras_at : &players_at;
    it->fd = socket(AF_INET, SOCK_STREAM | SOCK_NONBLOCK, 0);
    if (it->fd < 0) err(1, "socket");
    setsockopt(it->fd, IPPROTO_TCP, TCP_NODELAY, &on, sizeof on);
    it->step = CONNECTS;
    it->due = now_ms() + REPLY_WAIT;
    if (connect(it->fd, (struct sockaddr *)at, sizeof *at) != 0 && errno != EINPROGRESS) {
        leave(it);
        return;
    }
    watch(it, EPOLL_CTL_ADD, EPOLLOUT);
}

/* Sends the next request after the one that was answered 200, or after the connection. */
static void go_on(struct peer *it) {
    static const char *sdp = "v=0\r\nm=video 0 RTP/AVP 96\r\na=control:streamid=0\r\n";
    int is_camera = it->kind == CAMERA;
    it->step++;
    /* Every second peer leaves OPTIONS out. */
    if (it->step == OPTIONS && (it->place % 2 || it->kind == ASKER)) it->step++;
    if (it->step == OPTIONS) say(it, "OPTIONS", "", "", "");
    if (it->step == ASKS) {
        if (it->mount >= 0) it->was_live = mounts[it->mount].is_live, it->turn = mounts[it->mount].turn;
        say(it, is_camera ? "ANNOUNCE" : "DESCRIBE", "", "", is_camera ? sdp : "");
    }
    if (it->step == SETS_UP && is_camera) {
        mounts[it->mount].is_live = 1;
        mounts[it->mount].turn++;
        say(it, "SETUP", "/streamid=0", "Transport: RTP/AVP/TCP;unicast;interleaved=0-1;mode=record\r\n", "");
    } else if (it->step == SETS_UP) {
        say(it, "SETUP", "/trackID=0", "Transport: RTP/AVP/TCP;unicast;interleaved=0-1\r\n", "");
    }
    if (it->step == BEGINS) say(it, is_camera ? "RECORD" : "PLAY", "", "", "");
    if (it->step == RUNS) {
        it->has_next = 0;
        it->alive_due = now_ms() + KEEPALIVE;
    }
}

/* Counts an asker's answer, and ends it. */
static void count_asked(struct peer *it, int status) {
    uint64_t took = now_ms() - (it->due - REPLY_WAIT);
    if (took > asked.slowest) asked.slowest = took;
    if (status == 200) asked.ok++;
    else if (status == 404) asked.missing++;
    else asked.other++;
}

static void take_reply(struct peer *it, char *head) {
    int status = atoi(head + 9);
    char *session = strcasestr(head, "\r\nSession:");
    if (session != NULL) sscanf(session + 10, " %31[^;\r]", it->session);
    if (it->kind == ASKER) count_asked(it, status);
    if (status == 200 && it->kind != ASKER) {
        if (it->step != RUNS) go_on(it);
        return;
    }
    it->refused += status != 200;
    if (status == 404 && it->kind != CAMERA && it->mount >= 0 && it->was_live && mounts[it->mount].is_live &&
        it->turn == mounts[it->mount].turn && doubt_count < MOST_DOUBTS) {
        doubts[(first_doubt + doubt_count++) % MOST_DOUBTS] = (struct doubt){it->mount, it->turn, now_ms() + CERTAIN};
    }
    leave(it);
}

/* A 404 was one of a live mount if the camera still has the connection by which it announced the mount. */
static void judge(uint64_t now) {
    for (; doubt_count > 0 && doubts[first_doubt].due <= now; doubt_count--) {
        struct doubt *it = &doubts[first_doubt];
        struct mount *of = &mounts[it->mount];
        if (of->is_live && of->turn == it->turn) of->refused_live++;
        first_doubt = (first_doubt + 1) % MOST_DOUBTS;
    }
}

static void take_packet(struct peer *it, const uint8_t *packet, size_t len, uint64_t now) {
    uint32_t number;
    if (len < RTP_HEAD) return;
    memcpy(&number, packet + 4, sizeof number);
    number = ntohl(number);
    if (it->has_had) {
        uint32_t ahead = number - it->next;
        if (ahead > 0 && ahead < 1u << 31) *(it->has_next ? &it->lost : &it->missed) += ahead;
        if (now - it->last > it->gap) it->gap = now - it->last;
        if (now - it->last > BLACK) it->gap_end = now;
    }
    it->next = number + 1;
    it->has_next = it->has_had = 1;
    it->last = now;
}

/* The length of a frame, or of a reply and its body, at some bytes; 0 if it isn't whole. */
static size_t unit_len(const char *at, size_t len) {
    if (at[0] == '$') {
        size_t whole = len < FRAME_HEAD ? 0 : FRAME_HEAD + ((size_t)(uint8_t)at[2] << 8 | (uint8_t)at[3]);
        return whole <= len ? whole : 0;
    }
    const char *end = memmem(at, len, "\r\n\r\n", 4), *body = strcasestr(at, "Content-Length:");
    if (end == NULL) return 0;
    size_t whole = (size_t)(end + 4 - at) + (body != NULL && body < end ? strtoul(body + 15, NULL, 10) : 0);
    return whole <= len ? whole : 0;
}

static void read_peer(struct peer *it) {
    ssize_t got = recv(it->fd, it->in + it->len, ROOM - it->len, 0);
    if (got < 0 && errno == EAGAIN) return;
    if (got <= 0) {
        if (it->kind == ASKER) asked.closed++;
        leave(it);
        return;
    }
    uint64_t now = now_ms();
    it->len += (size_t)got;
    it->in[it->len] = 0;
    size_t at = 0;
    for (size_t len; it->fd >= 0 && at < it->len && (len = unit_len(it->in + at, it->len - at)) > 0; at += len) {
        char *unit = it->in + at;
        if (unit[0] != '$') take_reply(it, unit);
        else if (unit[1] == 0 && it->kind == PLAYER) take_packet(it, (uint8_t *)unit + FRAME_HEAD, len - FRAME_HEAD, now);
    }
    if (it->fd < 0) return;
    if (at == 0 && it->len == ROOM) errx(1, "a reply or frame is too long");
    it->len -= at;
    memmove(it->in, it->in + at, it->len);
}

static void take_event(struct peer *it, uint32_t what) {
    if (it->fd < 0) return;
    if (it->step != CONNECTS) {
        read_peer(it);
        return;
    }
    int fault = 0;
    socklen_t len = sizeof fault;
    getsockopt(it->fd, SOL_SOCKET, SO_ERROR, &fault, &len);
    if (fault != 0 || what & EPOLLERR) {
        if (it->kind == ASKER) asked.closed++;
        leave(it);
        return;
    }
    watch(it, EPOLL_CTL_MOD, EPOLLIN);
    go_on(it);
}

/* Sends what is left of a frame, and then a packet if all of it went. */
static void send_packet(struct peer *it) {
    struct mount *of = &mounts[it->mount];
    if (it->step != RUNS) return;
    if (it->unsent == 0) {
        uint8_t high = (uint8_t)(of->number >> 8), low = (uint8_t)of->number;
        uint8_t head[FRAME_HEAD + RTP_HEAD] = {'$', 0, (uint8_t)(bytes >> 8), (uint8_t)bytes, 0x80, 96, high, low};
        uint32_t fields[] = {htonl(of->number++), htonl((uint32_t)it->mount)};
        memcpy(head + 8, fields, sizeof fields);
        memcpy(it->out, head, sizeof head);
        it->unsent = FRAME_HEAD + (size_t)bytes;
    }
    size_t whole = FRAME_HEAD + (size_t)bytes;
    ssize_t sent = send(it->fd, it->out + (whole - it->unsent), it->unsent, MSG_NOSIGNAL);
    if (sent > 0) it->unsent -= (size_t)sent;
    else if (errno != EAGAIN) leave(it);
}

/* Sends an RTCP packet, so that the session doesn't expire. */
static void keep_alive(struct peer *it, uint64_t now) {
    static const uint8_t frame[] = {'$', 1, 0, 8, 0x80, 201, 0, 1, 0, 0, 0, 7};
    if (it->kind == PLAYER && it->alive_due <= now) {
        if (send(it->fd, frame, sizeof frame, MSG_NOSIGNAL | MSG_DONTWAIT) < 0) errno = 0;
        it->alive_due = now + KEEPALIVE;
    }
}

static void start_asker(int mount) {
    for (int k = 0; k < MOST_ASKERS; k++) {
        if (askers[k].step != IDLE) continue;
        askers[k].mount = mount;
        asker_count++;
        come(&askers[k]);
        return;
    }
}

static void start_askers(uint64_t now) {
    int open = 0;
    for (; ask_rate > 0 && ask_next <= now; ask_next += (uint64_t)(1000 / ask_rate)) start_asker((int)(asker_count % (uint64_t)mount_count));
    for (int k = 0; k < MOST_ASKERS; k++) open += askers[k].step != IDLE;
    for (; unknown_left > 0 && open < SIDE_BY_SIDE; open++, unknown_left--) start_asker(-1);
    if (unknown_left == 0 && open == 0 && ask_rate == 0 && ask_next == UINT64_MAX) {
        puts("unknown done");
        ask_next = 0;
    }
}

/* Makes tries that are due, and ends waits for replies. */
static void look(uint64_t now) {
    int count = mount_count + player_count, had = 0;
    for (int k = 0; k < count + MOST_ASKERS; k++) {
        struct peer *it = k < count ? &peers[k] : &askers[k - count];
        if (it->step == WAITS && it->due <= now) come(it);
        else if (it->step == RUNS) keep_alive(it, now);
        else if (it->step > WAITS && it->due <= now) {
            if (it->kind == ASKER) asked.closed++;
            leave(it);
        }
        had += it->has_had;
    }
    if (had == player_count && !has_all) {
        has_all = 1;
        puts("playing");
    }
    judge(now);
    start_askers(now);
}

static void mark(uint64_t now) {
    for (int k = 0; k < mount_count + player_count; k++) {
        struct peer *it = &peers[k];
        it->lost = it->missed = it->closes = it->refused = it->gap = it->gap_end = 0;
    }
    for (int k = 0; k < mount_count; k++) mounts[k].refused_live = 0;
    asked = (struct asked){0};
    marked = now;
}

static void report(uint64_t now) {
    for (int k = 0; k < mount_count + player_count; k++) {
        struct peer *it = &peers[k];
        uint64_t back = it->gap_end > marked ? it->gap_end - marked : 0;
        if (it->kind == CAMERA) {
            printf("camera %d live %d closes %lu refused %lu refused_live %lu\n", it->mount, mounts[it->mount].is_live, it->closes, it->refused,
                   mounts[it->mount].refused_live);
        } else {
            printf("player %d lost %lu missed %lu closes %lu refused %lu gap %lu back %lu since %lu\n", it->mount, it->lost, it->missed, it->closes,
                   it->refused, it->gap, back, now - it->last);
        }
    }
    printf("asked ok %lu missing %lu other %lu closed %lu slowest %lu\nend\n", asked.ok, asked.missing, asked.other, asked.closed, asked.slowest);
}

static void take_command(const char *line, uint64_t now) {
    if (strncmp(line, "mark", 4) == 0) mark(now);
    else if (strncmp(line, "report", 6) == 0) report(now);
    else if (sscanf(line, "ask %lf", &ask_rate) == 1) ask_next = now;
    else if (sscanf(line, "unknown %lu", &unknown_left) == 1) ask_next = UINT64_MAX;
    fflush(stdout);
}

/* Whole lines come: each is written at once. */
static void read_input(void) {
    char lines[1024] = "", *rest = lines;
    ssize_t got = read(0, lines, sizeof lines - 1);
    if (got <= 0) exit(0);
    for (char *line; (line = strsep(&rest, "\n")) != NULL;) take_command(line, now_ms());
}

static void serve_until(uint64_t due) {
    struct epoll_event some[MOST_EVENTS];
    static uint64_t looked;
    for (uint64_t now = now_ms();; now = now_ms()) {
        if (now >= looked + STEP) {
            looked = now;
            look(now);
            fflush(stdout);
        }
        int count = epoll_wait(events, some, MOST_EVENTS, now < due ? (int)(due - now < STEP ? due - now : STEP) : 0);
        for (int k = 0; k < count; k++) {
            if (some[k].data.ptr == NULL) read_input();
            else take_event(some[k].data.ptr, some[k].events);
        }
        if (now >= due) return;
    }
}

static void make_peers(void) {
    int count = mount_count + player_count;
    uint64_t now = now_ms();
    mounts = calloc((size_t)mount_count, sizeof *mounts);
    peers = calloc((size_t)count, sizeof *peers);
    askers = calloc(MOST_ASKERS, sizeof *askers);
    if (mounts == NULL || peers == NULL || askers == NULL) err(1, "calloc");
    for (int k = 0; k < count; k++) {
        struct peer *it = &peers[k];
        it->kind = k < mount_count ? CAMERA : PLAYER;
        it->mount = k < mount_count ? k : (k - mount_count) % mount_count;
        it->place = k < mount_count ? k : (k - mount_count) / mount_count;
        it->step = WAITS;
        it->fd = -1;
        it->due = now + (uint64_t)k * 3;
    }
    for (int k = 0; k < MOST_ASKERS; k++) askers[k].kind = ASKER, askers[k].fd = -1;
}

int main(int count, char **words) {
    if (count != 8) errx(2, "usage: fleet HOST CAMERAS_PORT PLAYERS_PORT MOUNTS PLAYERS RATE BYTES");
    host = words[1];
    cameras_at = players_at = (struct sockaddr_in){.sin_family = AF_INET};
    if (inet_pton(AF_INET, host, &cameras_at.sin_addr) != 1) errx(2, "fleet: no IPv4 address: %s", host);
    players_at.sin_addr = cameras_at.sin_addr;
    cameras_at.sin_port = htons((uint16_t)atoi(words[2]));
    players_at.sin_port = htons((uint16_t)atoi(words[3]));
    mount_count = atoi(words[4]), player_count = atoi(words[5]), rate = atoi(words[6]), bytes = atoi(words[7]);
    if (mount_count < 1 || player_count < 0 || rate < 1 || bytes < RTP_HEAD || bytes > MOST_BYTES) errx(2, "fleet: no such load");
    prctl(PR_SET_TIMERSLACK, 1);
    struct epoll_event input = {.events = EPOLLIN};
    events = epoll_create1(0);
    if (events < 0 || epoll_ctl(events, EPOLL_CTL_ADD, 0, &input) != 0) err(1, "epoll");
    make_peers();
    uint64_t start = now_ms();
    for (uint64_t slot = 0;; slot++) {
        serve_until(start + slot * 1000 / (uint64_t)(rate * mount_count));
        send_packet(&peers[slot % (uint64_t)mount_count]);
    }
}
