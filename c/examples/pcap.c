/* Two hosts in one process, and a file of all frames between them, which tcpdump and Wireshark open: ARP, a ping, a
 * neighbour solicitation, and a datagram of 3,000 octets that is sent back, in pieces.
 *
 *   pcap FILE      prints how many frames there were
 */
#include "iface.h"

#include <stdio.h>
#include <stdlib.h>
#include <string.h>

enum { PORT = 7, IDENT = 42, QUEUE_PACKETS = 8, QUEUE_OCTETS = 16384, ETHERNET_LINK = 1 };
static const struct iface_rooms rooms = IFACE_ROOMS(QUEUE_PACKETS, QUEUE_OCTETS);

static int64_t now; /* in microseconds */

static FILE *file;

static unsigned frames;

static void must(const char *what, uint32_t code) {
    if (code == IFACE_OK) return;
    fprintf(stderr, "pcap: %s: %s\n", what, iface_strerror(code));
    exit(1);
}

static void write_out(const void *octets, size_t length) {
    if (fwrite(octets, 1, length, file) == length) return;
    perror("pcap");
    exit(1);
}

/* The file's head: a magic number, a version, no zone, and how long a frame may be; all in the machine's order. */
static void write_head(void) {
    const struct {
        uint32_t magic;
        uint16_t major, minor;
        uint32_t zone, exactness, longest, link;
    } head = {0xa1b2c3d4, 2, 4, 0, 0, 65535, ETHERNET_LINK};
    write_out(&head, sizeof head);
}

static void write_frame(const uint8_t *frame, size_t length) {
    const uint32_t head[] = {(uint32_t)(now / 1000000), (uint32_t)(now % 1000000), (uint32_t)length, (uint32_t)length};
    write_out(head, sizeof head);
    write_out(frame, length);
    frames++;
}

/* A host at 192.168.69.`last` and fe80::`last`, with a socket of UDP. */
static uint32_t make(iface *host, uint8_t last) {
    struct iface_address v4 = {4, {192, 168, 69, last}}, v6 = {6, {0xfe, 0x80, [15] = last}};
    struct iface_endpoint any = {.port = PORT};
    struct iface_config config;
    uint32_t socket = 0;
    iface_config_init(&config);
    config.seed = last, config.hardware_address[0] = 2, config.hardware_address[5] = last;
    must("host", iface_new(host, &config));
    must("address", iface_add_address(host, &v4, 24));
    must("address", iface_add_address(host, &v6, 64));
    must("socket", iface_udp_open(host, &any, &rooms, &socket));
    return socket;
}

/* Hands over all that one host has to send, and what is answered, back and forth. Whether there was anything. */
static int hand_over(iface *one, iface *other) {
    static uint8_t frame[IFACE_FRAME_ROOM], response[IFACE_FRAME_ROOM];
    size_t length;
    int any = 0;
    for (;;) {
        iface *from = one, *to = other, *next;
        must("next", iface_next(from, now, frame, sizeof frame, &length));
        if (length == 0) return any;
        for (any = 1; length > 0; next = to, to = from, from = next, now += 50) {
            write_frame(frame, length);
            must("receive", iface_receive(to, now, frame, length, response, sizeof response, &length));
            memcpy(frame, response, length);
        }
    }
}

int main(int argc, char **argv) {
    static const uint8_t request[64] = {8, 0, 0, 0, 0, IDENT, 0, 1}, request6[64] = {128, 0, 0, 0, 0, IDENT, 0, 1};
    static const uint8_t sent[3000];
    static uint8_t got[QUEUE_OCTETS];
    const struct iface_endpoint to = {{4, {192, 168, 69, 2}}, PORT}, to6 = {{6, {0xfe, 0x80, [15] = 2}}, PORT};
    iface a = IFACE_NONE, b = IFACE_NONE;
    struct iface_endpoint from;
    struct iface_address pinged;
    uint32_t ping = 0;
    unsigned replies = 0;
    size_t length = 0;
    if (argc != 2 || !(file = fopen(argv[1], "wb"))) {
        fprintf(stderr, "usage: pcap FILE\n");
        return 2;
    }
    write_head();
    uint32_t at_a = make(&a, 1), at_b = make(&b, 2);
    must("socket", iface_icmp_open_ident(&a, IDENT, &rooms, &ping));
    must("ping", iface_icmp_send(&a, ping, &to.address, request, sizeof request));
    must("send", iface_udp_send(&a, at_a, &to, sent, sizeof sent));
    while (hand_over(&a, &b) | hand_over(&b, &a)) {}
    must("receive", iface_udp_receive(&b, at_b, &from, got, sizeof got, &length));
    must("send", iface_udp_send(&b, at_b, &from, got, length));
    while (hand_over(&a, &b) | hand_over(&b, &a)) {}
    now += 1000000; /* one neighbour a second is asked for */
    must("ping", iface_icmp_send(&a, ping, &to6.address, request6, sizeof request6));
    while (hand_over(&a, &b) | hand_over(&b, &a)) {}
    must("receive", iface_udp_receive(&a, at_a, &from, got, sizeof got, &length));
    while (iface_icmp_receive(&a, ping, &pinged, got, sizeof got, &length) == IFACE_OK) replies++;
    must("free", iface_free(&a));
    must("free", iface_free(&b));
    printf("%u frames\n", frames);
    return fclose(file) != 0 || replies != 2;
}
