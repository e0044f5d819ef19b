/* Cameras for tools/pull-cost: an RTSP server that sends each client one video track over its connection, at 8 Mbit/s.
 *
 *   cameras CLIENTS BURST
 *
 * It prints `port N`, and `playing` once all clients play. Packets have 1,200 bytes and come in bursts, of one client after the other
 * at equal distances. After a line SECONDS on standard input packets are marked as counted for that time; then it prints how many those
 * were and by how much the latest of them was late. It sends further packets until standard input ends. Each packet is a slice of H.264
 * and each burst a picture, so that ffmpeg can pass them on. */
#define _GNU_SOURCE
#include "rtsp.h"

#include <sys/prctl.h>
#include <sys/random.h>

enum { PACKET = 1200, FRAME = FRAME_HEAD + PACKET, MOST_BURST = 64, POOL = 1 << 16, BIT_RATE = 8000000 };

static const char *DESCRIPTION =
    "v=0\r\no=- 0 0 IN IP4 127.0.0.1\r\ns=-\r\nt=0 0\r\nm=video 0 RTP/AVP 96\r\na=rtpmap:96 H264/90000\r\n"
    "a=fmtp:96 packetization-mode=1;profile-level-id=42C01F;sprop-parameter-sets=Z0LAH9oBQBbsBEAAAAMAQAAADKPGDKg=,aM4PyA==\r\n"
    "a=control:video\r\n";

static unsigned char pool[POOL + PACKET];
static uint64_t window_end, counted, latest;
static int wanted, burst, playing, has_told = 1;

/* Random bytes without zeros. */
static void fill_pool(void) {
    for (size_t at = 0; at < sizeof pool; at += 256) {
        size_t len = sizeof pool - at < 256 ? sizeof pool - at : 256;
        if (getrandom(pool + at, len, 0) < 0) err(1, "getrandom");
    }
    for (size_t at = 0; at < sizeof pool; at++) pool[at] = pool[at] == 0 ? 1 : pool[at];
}

/* The head of a slice of an IDR picture (H.264, 7.3.3): its place in the picture, type I, and the first parameter set. */
static void put_slice_head(char *to, unsigned place) {
    int digits = 32 - __builtin_clz(place + 1), spare = 24 - (2 * digits - 1 + 8);
    uint32_t bits = ((place + 1) << 8 | 8 << 1 | 1) << spare | ((1u << spare) - 1);
    to[0] = 0x65;
    for (int k = 0; k < 3; k++) to[1 + k] = (char)(bits >> (16 - 8 * k));
}

/* One packet, the one at this place of a burst, in a frame of channel 0. */
static void put_frame(char *to, uint16_t number, uint32_t timestamp, unsigned place, char letter, uint64_t now) {
    unsigned char head[FRAME_HEAD + RTP_HEAD] = {'$', 0, PACKET >> 8, PACKET & 255, 0x80, 96, number >> 8, number & 255};
    char mark[MARK_LEN + 1];
    if ((int)place == burst - 1) head[5] |= 0x80;
    uint32_t fields[] = {htonl(timestamp), htonl(7)};
    memcpy(head + 8, fields, sizeof fields);
    snprintf(mark, sizeof mark, "%c%016lx", letter, (unsigned long)now);
    memcpy(to, head, sizeof head);
    put_slice_head(to + sizeof head, place);
    memcpy(to + MARK_AT, mark, MARK_LEN);
    memcpy(to + MARK_AT + MARK_LEN, pool + number * 97 % POOL, FRAME - MARK_AT - MARK_LEN);
}

static void send_burst(struct client *it, uint64_t due, uint64_t period) {
    static char out[MOST_BURST * FRAME];
    uint64_t now = now_ns();
    int counts = now < window_end;
    uint32_t timestamp = (uint32_t)(due / period * (period * 9 / 100000));
    for (int k = 0; k < burst; k++) put_frame(out + k * FRAME, it->next++, timestamp, (unsigned)k, counts ? 'c' : 'w', now);
    send_all(it, out, (size_t)burst * FRAME);
    if (!counts) return;
    counted += (uint64_t)burst;
    if (now - due > latest) latest = now - due;
}

static void take_request(struct client *it, char *request) {
    if (strncmp(request, "DESCRIBE", 8) == 0) {
        answer(it, request, "Content-Type: application/sdp\r\n", DESCRIPTION);
    } else {
        answer(it, request, strncmp(request, "OPTIONS", 7) == 0 ? "Public: OPTIONS, DESCRIBE, SETUP, PLAY, GET_PARAMETER, TEARDOWN\r\n" : "", "");
    }
    if (strncmp(request, "PLAY", 4) == 0 && !it->is_ready) {
        it->is_ready = 1;
        if (++playing == wanted) puts("playing");
    }
    if (strncmp(request, "TEARDOWN", 8) == 0) it->is_ready = 0;
}

/* Answers requests. What ffmpeg sends in frames is RTCP, and dropped. */
static void read_client(struct client *it) {
    ssize_t got = read(it->fd, it->bytes + it->len, ROOM - it->len);
    if (got <= 0) {
        close_client(it);
        return;
    }
    it->len += (size_t)got;
    it->bytes[it->len] = 0;
    for (size_t len; it->is_open && it->len > 0 && (len = unit_len(it->bytes, it->len)) > 0;) {
        if (it->bytes[0] != '$') take_request(it, it->bytes);
        it->len -= len;
        memmove(it->bytes, it->bytes + len, it->len + 1);
    }
}

static void read_input(void) {
    char line[64] = "";
    if (read(0, line, sizeof line - 1) <= 0) exit(0);
    window_end = now_ns() + (uint64_t)(strtod(line, NULL) * 1e9);
    has_told = 0;
}

/* Serves clients until this moment. */
static void serve_until(int poll, int listener, uint64_t due) {
    struct epoll_event events[MOST_EVENTS];
    for (uint64_t now = now_ns();; now = now_ns()) {
        uint64_t left = now < due ? due - now : 0;
        struct timespec wait = {.tv_sec = (time_t)(left / 1000000000u), .tv_nsec = (long)(left % 1000000000u)};
        int count = epoll_pwait2(poll, events, MOST_EVENTS, &wait, NULL);
        for (int k = 0; k < count; k++) {
            if (events[k].data.ptr == &listener_mark) accept_client(poll, listener);
            else if (events[k].data.ptr == NULL) read_input();
            else read_client(events[k].data.ptr);
        }
        if (left == 0) return;
    }
}

int main(int count, char **words) {
    if (count != 3) errx(2, "usage: cameras CLIENTS BURST");
    wanted = atoi(words[1]);
    burst = atoi(words[2]);
    if (wanted < 1 || wanted > MOST_CLIENTS || burst < 1 || burst > MOST_BURST) errx(2, "cameras: no such load");
    uint64_t period = (uint64_t)burst * PACKET * 8 * 1000000000u / BIT_RATE;
    int poll = epoll_create1(0), listener = listen_somewhere();
    fill_pool();
    prctl(PR_SET_TIMERSLACK, 1);
    watch(poll, listener, &listener_mark);
    watch(poll, 0, NULL);
    uint64_t start = now_ns();
    for (uint64_t slot = 0;; slot++) {
        uint64_t due = start + slot * period / (uint64_t)wanted;
        serve_until(poll, listener, due);
        int place = (int)(slot % (uint64_t)wanted);
        if (place < client_count && clients[place]->is_ready) send_burst(clients[place], due, period);
        if (!has_told && due >= window_end) {
            has_told = 1;
            printf("sent %lu late %lu\n", (unsigned long)counted, (unsigned long)latest);
        }
    }
}
