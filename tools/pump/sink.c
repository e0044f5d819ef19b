/* The target for tools/pull-cost: an RTSP server that answers publishers with 200 and measures what they send.
 *
 *   sink CLIENTS
 *
 * It prints `port N`, and `recording` once packets of all clients come. After each line on standard input it prints how many packets have
 * come that cameras.c has marked as counted, how many clients have connected, the fewest packets of one of them, the bytes of all, how many
 * sequence numbers were missing, and the median and the 99th percentile of the time from send to receive in nanoseconds. It ends when
 * standard input ends. */
#define _GNU_SOURCE
#include "rtsp.h"

static uint64_t *times, bytes, gaps;
static size_t time_count, time_room;
static int wanted, recording;

static void add_time(uint64_t it) {
    if (time_count == time_room) {
        time_room = time_room == 0 ? 1 << 16 : time_room * 2;
        times = realloc(times, time_room * sizeof *times);
        if (times == NULL) err(1, "realloc");
    }
    times[time_count++] = it;
}

static int compare(const void *one, const void *other) {
    uint64_t a = *(const uint64_t *)one, b = *(const uint64_t *)other;
    return (a > b) - (a < b);
}

/* A frame of an RTP packet that was read at this moment. */
static void take_frame(struct client *it, const char *frame, size_t len, uint64_t now) {
    uint16_t number = (uint16_t)((uint8_t)frame[6] << 8 | (uint8_t)frame[7]);
    if (!it->is_ready) {
        it->is_ready = 1;
        if (++recording == wanted) puts("recording");
    }
    if (it->has_next) gaps += (uint16_t)(number - it->next);
    it->has_next = 1;
    it->next = (uint16_t)(number + 1);
    if (len < MARK_AT + MARK_LEN || frame[MARK_AT] != 'c') return;
    char digits[MARK_LEN] = "";
    memcpy(digits, frame + MARK_AT + 1, MARK_LEN - 1);
    it->counted++;
    add_time(now - strtoull(digits, NULL, 16));
    bytes += len - FRAME_HEAD;
}

static void read_client(struct client *it) {
    ssize_t got = read(it->fd, it->bytes + it->len, ROOM - it->len);
    uint64_t now = now_ns();
    if (got <= 0) {
        close_client(it);
        return;
    }
    it->len += (size_t)got;
    it->bytes[it->len] = 0;
    size_t at = 0;
    for (size_t len; it->is_open && at < it->len && (len = unit_len(it->bytes + at, it->len - at)) > 0; at += len) {
        const char *unit = it->bytes + at;
        if (unit[0] != '$') answer(it, unit, "", "");
        else if (unit[1] == 0 && len >= FRAME_HEAD + RTP_HEAD) take_frame(it, unit, len, now);
    }
    it->len -= at;
    memmove(it->bytes, it->bytes + at, it->len);
}

static void read_input(void) {
    char line[64];
    if (read(0, line, sizeof line) <= 0) exit(0);
    size_t least = SIZE_MAX;
    for (int k = 0; k < client_count; k++) least = clients[k]->counted < least ? clients[k]->counted : least;
    qsort(times, time_count, sizeof *times, compare);
    uint64_t p50 = time_count ? times[time_count / 2] : 0, p99 = time_count ? times[time_count * 99 / 100] : 0;
    printf("packets %zu clients %d least %zu bytes %lu gaps %lu p50 %lu p99 %lu\n", time_count, client_count, least,
           (unsigned long)bytes, (unsigned long)gaps, (unsigned long)p50, (unsigned long)p99);
}

int main(int count, char **words) {
    struct epoll_event events[MOST_EVENTS];
    if (count != 2) errx(2, "usage: sink CLIENTS");
    wanted = atoi(words[1]);
    int poll = epoll_create1(0), listener = listen_somewhere();
    watch(poll, listener, &listener_mark);
    watch(poll, 0, NULL);
    for (;;) {
        int some = epoll_wait(poll, events, MOST_EVENTS, -1);
        for (int k = 0; k < some; k++) {
            if (events[k].data.ptr == &listener_mark) accept_client(poll, listener);
            else if (events[k].data.ptr == NULL) read_input();
            else read_client(events[k].data.ptr);
        }
    }
}
