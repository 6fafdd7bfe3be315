/* What the programs for boards share: lines that are printed, and frames between a host and its device. */
#ifndef BOARDS_HOST_H
#define BOARDS_HOST_H

#include "arena.h"
#include "board.h"

enum { SECOND = 1000000 };

static inline void say(const char *what, const char *more) {
    board_print(what), board_print(more), board_print("\n");
}

/* Stops unless a call was done. */
static inline void must(const char *what, uint32_t code) {
    if (code == IFACE_OK) return;
    board_print(what), say(": ", iface_strerror(code));
    board_stop(1);
}

/* Writes a number in decimal digits, and returns where they end. */
static inline char *put_number(char *to, size_t number) {
    char digits[20];
    int count = 0;
    do digits[count++] = (char)('0' + number % 10);
    while ((number /= 10) > 0);
    while (count > 0) *to++ = digits[--count];
    return to;
}

/* The text of an IPv4 address, until the next call. */
static inline const char *text_of(const struct iface_address *a) {
    static char text[16];
    char *to = text;
    for (int i = 0; i < 4; i++) {
        if (i > 0) *to++ = '.';
        to = put_number(to, a->octets[i]);
    }
    *to = '\0';
    return text;
}

/* Makes a host of the least size that has so many sockets, in memory of the program's. */
static inline void make_host(iface *host, uint32_t sockets, void *memory, size_t size) {
    struct iface_config config;
    size_t wanted;
    iface_config_init(&config);
    board_start(config.hardware_address);
    board_draw(&config.seed, sizeof config.seed);
    config.sockets = sockets, config.neighbors = 0, config.routes = 0, config.fragmented = 0;
    must("host", iface_new_in(host, &config, memory, size, &wanted));
}

/* Without a lease: 192.168.69.9. */
static inline void add_address(iface *host) {
    const struct iface_address own = {4, {192, 168, 69, 9}};
    must("address", iface_add_address(host, &own, 24));
    say("address: ", text_of(&own));
}

/* Hands over the next frame that came, and sends its response. Whether there was one. */
static inline int take_frame(iface *host) {
    size_t length;
    uint64_t responding = 0;
    const uint8_t *frame = board_frame(&length);
    if (!frame) return 0;
    must("frame", iface_receive(host, board_now(), frame, length, board_room(), IFACE_FRAME_ROOM, &responding));
    board_frame_done();
    if (responding > 0) board_send((size_t)responding);
    return 1;
}

/* Sends all that is to be sent. When there is more, if no frame comes before. */
static inline int64_t send_all(iface *host) {
    uint64_t length;
    int64_t at, now = board_now();
    while (iface_next(host, now, board_room(), IFACE_FRAME_ROOM, &length) == IFACE_OK && length > 0) board_send((size_t)length);
    must("poll_at", iface_poll_at(host, now, &at));
    return at;
}

static inline int64_t earlier(int64_t a, int64_t b) {
    return a < b ? a : b;
}

/* Prints how much memory and stack were ever taken, where that grew. */
static inline void tell_memory(void) {
    static size_t heap, stack;
    char line[64], *to;
    if (heap == iface_arena_peak() && stack == board_stack()) return;
    heap = iface_arena_peak(), stack = board_stack();
    to = put_number(line, heap);
    *to++ = ' ', to = put_number(to, stack), *to = '\0';
    say("memory and stack: ", line);
}

#endif
