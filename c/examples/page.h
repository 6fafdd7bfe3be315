/* Pages of HTTP by connections of TCP (RFC 9110, RFC 9112): one that is fetched from a peer, and one that is served to peers. */
#ifndef EXAMPLES_PAGE_H
#define EXAMPLES_PAGE_H

#include "streams.h"

enum { SECOND = 1000000 };

/* http://HOST:PORT/PATH, where the port is 80 and the path / unless they are told, and an address of IPv6 stands in brackets. */
struct url {
    char authority[263], host[256]; /* HOST:PORT as it was told, and HOST without brackets */
    uint16_t port;
    const char *path;
};

static inline struct url url_of(const char *text) {
    struct url u = {.port = 80, .path = "/"};
    int end = 0, at = 0;
    if (sscanf(text, "http://%262[^/]%n", u.authority, &end) == 1 && u.authority[0] == '[') sscanf(u.authority, "[%255[^]]]%n", u.host, &at);
    else sscanf(u.authority, "%255[^:]%n", u.host, &at);
    if (at == 0 || (u.authority[at] && u.authority[at] != ':') || (text[end] && text[end] != '/')) {
        fprintf(stderr, "%s: not http://HOST:PORT/PATH\n", text);
        exit(2);
    }
    if (u.authority[at]) u.port = (uint16_t)number_of(u.authority + at + 1, 1, 65535);
    if (text[end]) u.path = text + end;
    return u;
}

/* A page that is fetched: its connection, and how much of its head came. */
struct fetch {
    struct iface_stream stream;
    int is_asked;
    char status[13]; /* its first words, as HTTP/1.1 200 */
    size_t came;     /* how many octets of these */
    size_t blank;    /* how many octets of the empty line that ends the head */
};

/* Opens the connection. */
static inline void start_fetch(iface_streams *tcp, iface *host, struct fetch *f, const struct iface_endpoint *from) {
    struct iface_endpoint local = {IFACE_ANY, 0};
    uint32_t code;
    memset(f, 0, sizeof *f);
    need_way(host, &from->address);
    do {
        draw(&local.port, sizeof local.port);
        local.port |= 0xc000; /* from 49152 on (RFC 6335, 6) */
    } while ((code = iface_stream_connect(tcp, host, now_micros(), &local, from, &f->stream)) == IFACE_IN_USE);
    must("connect", code);
    must("timeout", iface_stream_set_timeout(tcp, &f->stream, 5 * SECOND));
    must("keep-alive", iface_stream_set_keep_alive(tcp, &f->stream, 10 * SECOND));
}

static inline void ask(iface_streams *tcp, struct fetch *f, const struct url *page) {
    char request[1024];
    size_t sent;
    int length = snprintf(request, sizeof request, "GET %s HTTP/1.0\r\nHost: %s\r\n\r\n", page->path, page->authority);
    if (length >= (int)sizeof request) must(page->path, IFACE_TOO_LONG);
    must("send", iface_stream_send(tcp, &f->stream, (const uint8_t *)request, (size_t)length, &sent));
    f->is_asked = 1;
}

/* Prints what comes after the head. */
static inline void print_page(struct fetch *f, const uint8_t *octets, size_t count) {
    size_t i = 0;
    for (; i < count && f->blank < 4; i++) {
        if (f->came < sizeof f->status - 1) f->status[f->came++] = (char)octets[i];
        f->blank = octets[i] == (uint8_t) "\r\n\r\n"[f->blank] ? f->blank + 1 : octets[i] == '\r';
    }
    fwrite(octets + i, 1, count - i, stdout);
}

/* Asks for the page once the peer is there, prints what came, and closes after the peer. Whether it goes on. */
static inline int go_on(iface_streams *tcp, struct fetch *f, const struct url *page) {
    static uint8_t octets[65535];
    uint32_t state;
    size_t count;
    must("state", iface_stream_state(tcp, &f->stream, &state));
    if (state >= IFACE_ESTABLISHED && !f->is_asked) ask(tcp, f, page);
    do {
        must("receive", iface_stream_receive(tcp, &f->stream, octets, sizeof octets, &count));
        print_page(f, octets, count);
    } while (count > 0);
    if (state == IFACE_CLOSE_WAIT) must("close", iface_stream_close(tcp, &f->stream));
    return state != IFACE_CLOSED;
}

/* Lets go of the connection. Whether the whole page came; if not, the reason is told. */
static inline int end_fetch(iface_streams *tcp, struct fetch *f) {
    static const char *const reasons[] = {"", "the peer cut the connection", "the peer refused the connection",
                                          "the peer doesn't answer", "the own address is gone", "the peer can't be reached"};
    uint32_t ending;
    must("ending", iface_stream_ending(tcp, &f->stream, &ending));
    must("release", iface_stream_release(tcp, &f->stream));
    fflush(stdout);
    if (ending == IFACE_NOT_CUT && f->blank == 4 && strcmp(f->status + 8, " 200") == 0) return 1;
    fprintf(stderr, "%s\n", ending != IFACE_NOT_CUT ? reasons[ending] : f->blank == 4 ? f->status : "that was no page");
    return 0;
}

/* Serves a page by a connection that was accepted: each request gets it, as soon as its head is there, and then the connection
 * ends. Reads on until the peer's end. Whether it goes on. */
static inline int serve_page(iface_streams *tcp, const struct iface_stream *s, const char *page) {
    static uint8_t octets[65535];
    size_t came, sent;
    uint32_t state;
    must("peek", iface_stream_peek(tcp, s, octets, sizeof octets, &came));
    must("state", iface_stream_state(tcp, s, &state));
    if (state == IFACE_ESTABLISHED || state == IFACE_CLOSE_WAIT) {
        if (!memmem(octets, came, "\r\n\r\n", 4)) return state == IFACE_ESTABLISHED && came < sizeof octets;
        must("send", iface_stream_send(tcp, s, (const uint8_t *)page, strlen(page), &sent));
        must("close", iface_stream_close(tcp, s));
    }
    must("receive", iface_stream_receive(tcp, s, octets, sizeof octets, &came));
    must("state", iface_stream_state(tcp, s, &state));
    return state != IFACE_CLOSED && state < IFACE_CLOSE_WAIT;
}

#endif
