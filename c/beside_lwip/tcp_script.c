/* Prints what tcp_bench.c does, for a program that can't stand behind tcp_host.h, as one in Rattle: the same frames and calls, a
 * line each. It stands in for the host as a perfect one would, whose first sequence numbers come on standard input, one a line,
 * in the order of its connections; they are 0 where none comes.
 *
 *   tcp_script WORK ROUNDS [CONNECTIONS] < NUMBERS
 *
 *   take MOMENT FRAME      a frame arrives, in hex
 *   poll MOMENT            what is due is done
 *   accept C               the next connection is accepted; it is C from here
 *   read C OCTETS          so many octets are read
 *   write C OCTETS         so many are written; of number i of the benchmark's 1,460 the value is i modulo 256
 *   close C                this direction ends
 *
 * The last line is the benchmark's own.
 */
#include "../examples/octets.h"
#include "tcp_host.h"

#include <stdio.h>

enum { HEADERS = 54, FIN = 1, SYN = 2, ACK = 16 };

static struct connection {
    int is_used, is_new;
    uint32_t next;
    size_t unread;
} connections[MOST_CONNECTIONS];

static int of_port[65536], newest = -1;
static int64_t moment;

/* The host sends a segment: the benchmark reads its number and its control bits. */
static void send_segment(struct connection *c, uint8_t control, size_t length) {
    static uint8_t frame[HEADERS + 1460];
    put_16(frame + 38, c->next >> 16), put_16(frame + 40, c->next & 0xffff);
    frame[47] = control;
    c->next += (uint32_t)length + !!(control & (SYN | FIN));
    bench_sent(frame, HEADERS + length);
}

void host_new(void) {
}

void host_at(int64_t now) {
    moment = now;
}

static struct connection *begin(unsigned port) {
    unsigned long number = 0;
    int i = 0;
    while (connections[i].is_used) i++;
    if (scanf("%lu", &number) != 1) number = 0;
    of_port[port] = i;
    connections[i] = (struct connection){.is_used = 1, .is_new = 1, .next = (uint32_t)number};
    return &connections[i];
}

void host_take(const uint8_t *frame, size_t length) {
    printf("take %lld ", (long long)moment);
    for (size_t i = 0; i < length; i++) printf("%02x", frame[i]);
    putchar('\n');
    if (length < HEADERS) return;
    unsigned port = get_16(frame + 34);
    uint8_t control = frame[47];
    struct connection *c = control & SYN ? begin(port) : &connections[of_port[port]];
    c->unread += length - 34 - (size_t)(frame[46] >> 4) * 4;
    if (control & SYN) send_segment(c, SYN | ACK, 0);
    else if (c->is_new) c->is_new = 0, newest = of_port[port];
}

void host_poll(void) {
    printf("poll %lld\n", (long long)moment);
}

int host_accept(void) {
    int c = newest;
    newest = -1;
    printf("accept %d\n", c);
    return c;
}

size_t host_read(int connection, uint8_t *octets, size_t room) {
    struct connection *c = &connections[connection];
    size_t length = c->unread < room ? c->unread : room;
    (void)octets;
    c->unread -= length;
    printf("read %d %zu\n", connection, length);
    return length;
}

size_t host_write(int connection, const uint8_t *octets, size_t length) {
    (void)octets;
    printf("write %d %zu\n", connection, length);
    send_segment(&connections[connection], ACK, length);
    return length;
}

void host_close(int connection) {
    printf("close %d\n", connection);
    send_segment(&connections[connection], FIN | ACK, 0);
    connections[connection].is_used = 0;
}
