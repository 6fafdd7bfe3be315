/* A link of a gateway: its device, its host of the library, the neighbours that are known there, and the packets that wait
 * for one. */
#ifndef EXAMPLES_LINK_H
#define EXAMPLES_LINK_H

#include "tap.h"

#include "transit.h"

/* Neighbours that are remembered, packets that wait, neighbours that are asked for at a time, the longest frame. */
enum { NEIGHBORS = 64, HELD = 16, PROBES = 3, LONGEST = 1514 };

struct neighbor {
    struct iface_address address;
    uint8_t hardware[6];
    int64_t until;
};

/* A packet that waits for its next hop, behind room for a header of Ethernet: none if its length is 0. */
struct held {
    struct iface_address hop;
    size_t length;
    int in; /* the link that it came from */
    uint8_t frame[LONGEST];
};

/* A next hop that is asked for: the library has a packet for it, which is dropped when its hardware address is known. */
struct probe {
    struct iface_address hop;
    uint32_t socket;
    int is_open;
};

struct link {
    iface host;
    int tap;
    uint8_t hardware[6];
    size_t mtu;
    uint32_t errors[2]; /* raw sockets, of ICMP and of ICMPv6 */
    struct neighbor neighbors[NEIGHBORS];
    struct held held[HELD];
    struct probe probes[PROBES];
    unsigned long sent; /* packets of others */
};

/* Sends a packet to a hardware address, over IPv4 in pieces if it has to be. There is room for a header of Ethernet before it. */
static inline void emit(struct link *l, const uint8_t *hardware, uint8_t *packet, size_t length) {
    uint8_t *header = packet - 14;
    memcpy(header, hardware, 6);
    memcpy(header + 6, l->hardware, 6);
    put_16(header + 12, is_ipv4(packet) ? 0x0800 : 0x86dd);
    l->sent++;
    if (length <= l->mtu) {
        send_frame(l->tap, header, 14 + length);
        return;
    }
    for (size_t at = 0; at < length - header_length(packet);) {
        uint8_t piece[LONGEST];
        memcpy(piece, header, 14);
        send_frame(l->tap, piece, 14 + write_fragment(piece + 14, packet, length, l->mtu, &at));
    }
}

/* The hardware address of a neighbour, where it is known. */
static inline const uint8_t *hardware_of(const struct link *l, const struct iface_address *hop) {
    for (int i = 0; i < NEIGHBORS; i++)
        if (l->neighbors[i].until > now_micros() && memcmp(&l->neighbors[i].address, hop, sizeof *hop) == 0)
            return l->neighbors[i].hardware;
    return NULL;
}

/* Remembers the neighbours that the library knows, up to the same end: in the place that ends first. */
static inline void remember(struct link *l) {
    struct neighbor n;
    for (uint32_t i = 0; iface_neighbor_at(&l->host, i, &n.address, n.hardware, &n.until) == IFACE_OK; i++) {
        int place = 0;
        for (int k = 0; k < NEIGHBORS; k++) {
            if (memcmp(&l->neighbors[k].address, &n.address, sizeof n.address) == 0) {
                place = k;
                break;
            }
            if (l->neighbors[k].until < l->neighbors[place].until) place = k;
        }
        l->neighbors[place] = n;
    }
}

/* Asks for a next hop, unless that is done, or too many are asked for. Whether it is asked for. */
static inline int ask_for(struct link *l, const struct iface_address *hop) {
    const struct iface_rooms rooms = IFACE_ROOMS(1, 64);
    const uint8_t echo[8] = {hop->version == 4 ? 8 : 128};
    struct probe *unused = NULL;
    for (int i = 0; i < PROBES; i++) {
        if (l->probes[i].is_open && memcmp(&l->probes[i].hop, hop, sizeof *hop) == 0) return 1;
        if (!l->probes[i].is_open) unused = &l->probes[i];
    }
    if (!unused || iface_icmp_open_ident(&l->host, 0, &rooms, &unused->socket) != IFACE_OK) return 0;
    unused->hop = *hop;
    unused->is_open = 1;
    return iface_icmp_send(&l->host, unused->socket, hop, echo, sizeof echo) == IFACE_OK;
}

/* Keeps a packet that came from a link until its next hop is known. Whether there was room. */
static inline int hold(struct link *l, int in, const struct iface_address *hop, const uint8_t *packet, size_t length) {
    struct held *place = l->held, *end = l->held + HELD;
    while (place < end && place->length > 0) place++;
    if (length > LONGEST - 14 || place == end || !ask_for(l, hop)) return 0;
    place->hop = *hop, place->in = in, place->length = length;
    memcpy(place->frame + 14, packet, length);
    return 1;
}

#endif
