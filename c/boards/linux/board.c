/* The same on Linux, over the TAP device tap0: the programs for boards run there as they are, to be measured. */
#define _GNU_SOURCE
#include "../board.h"

#include <fcntl.h>
#include <linux/if_tun.h>
#include <net/if.h>
#include <poll.h>
#include <stdlib.h>
#include <string.h>
#include <sys/ioctl.h>
#include <time.h>
#include <unistd.h>

enum { MEASURED = 65536, UNUSED = 0xa5, LONGEST = 1514 };

static uint8_t came[LONGEST], to_send[LONGEST];
static size_t came_length; /* 0: no frame waits */
static int tap;
static volatile uint8_t *stack; /* so many octets below the frame of main's first call */

/* Writes the pattern below its own frame, where later calls have theirs. */
__attribute__((noinline)) static void paint(void) {
    volatile uint8_t below[MEASURED];
    for (size_t i = 0; i < MEASURED; i++) below[i] = UNUSED;
    stack = below; /* cppcheck-suppress danglingLifetime */
}

size_t board_stack(void) {
    size_t at = 0;
    while (at < MEASURED && stack[at] == UNUSED) at++;
    return MEASURED - at;
}

void board_start(uint8_t hardware_address[6]) {
    struct ifreq wanted;
    memset(&wanted, 0, sizeof wanted);
    wanted.ifr_flags = IFF_TAP | IFF_NO_PI;
    memcpy(wanted.ifr_name, "tap0", 5);
    tap = open("/dev/net/tun", O_RDWR | O_NONBLOCK);
    if (tap < 0 || ioctl(tap, TUNSETIFF, &wanted) < 0) board_print("no tap0\n"), board_stop(1);
    hardware_address[0] = 2, hardware_address[5] = 9;
    paint();
}

int64_t board_now(void) {
    struct timespec t;
    clock_gettime(CLOCK_MONOTONIC, &t);
    return (int64_t)t.tv_sec * 1000000 + t.tv_nsec / 1000;
}

const uint8_t *board_frame(size_t *length) {
    ssize_t got = came_length > 0 ? 0 : read(tap, came, sizeof came);
    if (got > 0) came_length = (size_t)got;
    *length = came_length;
    return came_length > 0 ? came : NULL;
}

void board_frame_done(void) {
    came_length = 0;
}

uint8_t *board_room(void) {
    return to_send;
}

void board_send(size_t length) {
    if (write(tap, to_send, length) < 0) board_print("a frame is lost\n");
}

void board_sleep(int64_t until) {
    struct pollfd frame = {.fd = tap, .events = POLLIN};
    int64_t rest = until - board_now();
    if (came_length == 0 && rest > 0) poll(&frame, 1, rest < 60000000 ? (int)((rest + 999) / 1000) : 60000);
}

void board_draw(void *to, size_t length) {
    if (getentropy(to, length) != 0) board_stop(1);
}

void board_light(int is_on) {
    (void)is_on;
}

void board_print(const char *text) {
    if (write(1, text, strlen(text)) < 0) board_stop(1);
}

void board_stop(int status) {
    exit(status);
}
