/* A client: it leases its address, asks for the address of a name, and fetches a page from there by one connection. */
#include "lease.h"
#include "page.h"

enum { MEMORY = 64 * 1024 };

static uint64_t memory[MEMORY / sizeof(uint64_t)];
static iface host = IFACE_NONE;
static struct iface_stream page_from;
static enum { NOT_CONNECTED, CONNECTED, ASKED, DONE } phase;

static void connect_to_name(void) {
    struct iface_endpoint local = {IFACE_ANY, 0}, remote = {answered, 80};
    if (answered.version == 0) return;
    board_draw(&local.port, sizeof local.port);
    local.port |= 0xc000; /* from 49152 on (RFC 6335, 6) */
    must("connect", iface_stream_connect(&tcp, &host, board_now(), &local, &remote, &page_from));
    phase = CONNECTED;
}

static void ask(void) {
    static const char request[] = "GET / HTTP/1.0\r\nHost: " NAME "\r\n\r\n";
    uint64_t sent;
    must("send", iface_stream_send(&tcp, &page_from, (const uint8_t *)request, sizeof request - 1, &sent));
    phase = ASKED;
}

/* Reads on until the peer's end, closes, and lets go. */
static void fetch(void) {
    static uint8_t octets[ROOM];
    static size_t octets_of_page;
    char line[24];
    uint64_t came;
    uint32_t state;
    must("state", iface_stream_state(&tcp, &page_from, &state));
    if (phase == CONNECTED && state == IFACE_ESTABLISHED) ask();
    do {
        must("receive", iface_stream_receive(&tcp, &page_from, octets, sizeof octets, &came));
        octets_of_page += (size_t)came;
    } while (came > 0);
    if (state == IFACE_CLOSE_WAIT) must("close", iface_stream_close(&tcp, &page_from));
    if (state != IFACE_CLOSED && state < IFACE_CLOSE_WAIT) return;
    must("release", iface_stream_release(&tcp, &page_from));
    *put_number(line, octets_of_page) = '\0';
    say("octets of the answer: ", line);
    phase = DONE;
}

static int64_t take_turn(void) {
    int64_t at, due, now = board_now();
    poll_clients(&host, now);
    if (phase == NOT_CONNECTED) connect_to_name();
    must("connections", iface_streams_poll(&tcp, &host, now));
    if (phase == CONNECTED || phase == ASKED) fetch();
    must("connections", iface_streams_poll(&tcp, &host, now));
    at = send_all(&host);
    must("connections", iface_streams_poll_at(&tcp, &due));
    return earlier(earlier(at, due), poll_clients_at());
}

int main(void) {
    make_host(&host, 5, memory, sizeof memory);
    make_connections(&host, 1);
    make_clients(&host);
    say("started: ", iface_build());
    for (;;) {
        int64_t at = take_turn();
        tell_memory();
        if (!take_frame(&host)) board_sleep(at);
    }
}
