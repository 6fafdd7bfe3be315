/* A host that answers pings, and nothing else. */
#include "host.h"

enum { MEMORY = 30 * 1024 };

static uint64_t memory[MEMORY / sizeof(uint64_t)];
static iface host = IFACE_NONE;

int main(void) {
    make_host(&host, 0, memory, sizeof memory);
    add_address(&host);
    say("started: ", iface_build());
    for (;;) {
        int64_t at = send_all(&host);
        tell_memory();
        if (!take_frame(&host)) board_sleep(at);
    }
}
