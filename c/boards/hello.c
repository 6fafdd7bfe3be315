/* A host on a board, without an operating system and without a heap: it leases an address by DHCP, answers pings, asks DNS for the
 * address of a name, and has a page at port 80. Its light blinks once it has an address. */
#include "lease.h"
#include "page.h"

enum { MEMORY = 80 * 1024 };

static uint64_t memory[MEMORY / sizeof(uint64_t)];
static iface host = IFACE_NONE;

/* Everything that is due. When there is more, if no frame comes before. */
static int64_t take_turn(void) {
    int64_t at, due, now = board_now();
    poll_clients(&host, now);
    poll_connections(&host, now);
    at = send_all(&host);
    must("connections", iface_streams_poll_at(&tcp, &due));
    return earlier(earlier(at, due), poll_clients_at());
}

/* The light changes each half second while there is an address. When it does next. */
static int64_t blink(void) {
    static int64_t next;
    static int is_on;
    if (board_now() < next) return next;
    is_on = has_address && !is_on;
    board_light(is_on);
    tell_memory();
    return next = board_now() + SECOND / 2;
}

int main(void) {
    make_host(&host, 5, memory, sizeof memory);
    make_connections(&host, CONNECTIONS);
    listen_at_80();
    make_clients(&host);
    say("started: ", iface_build());
    for (;;) {
        int64_t at = earlier(take_turn(), blink());
        if (!take_frame(&host)) board_sleep(at);
    }
}
