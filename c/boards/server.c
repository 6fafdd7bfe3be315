/* A server of HTTP with four connections. */
#include "page.h"

enum { MEMORY = 56 * 1024 };

static uint64_t memory[MEMORY / sizeof(uint64_t)];
static iface host = IFACE_NONE;

static int64_t take_turn(void) {
    int64_t at, due;
    poll_connections(&host, board_now());
    at = send_all(&host);
    must("connections", iface_streams_poll_at(&tcp, &due));
    return earlier(at, due);
}

int main(void) {
    make_host(&host, 2, memory, sizeof memory);
    add_address(&host);
    make_connections(&host, CONNECTIONS);
    listen_at_80();
    say("started: ", iface_build());
    for (;;) {
        int64_t at = take_turn();
        tell_memory();
        if (!take_frame(&host)) board_sleep(at);
    }
}
