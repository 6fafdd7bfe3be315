/* What a gateway reads off a packet, and does to one: no state, and nothing is sent. */
#ifndef EXAMPLES_TRANSIT_H
#define EXAMPLES_TRANSIT_H

#include "iface.h"
#include "octets.h"

enum { ICMP = 1, FRAGMENT = 44, ICMPV6 = 58, IPV4_HEADER = 20, IPV6_HEADER = 40 };

static inline int is_ipv4(const uint8_t *packet) {
    return packet[0] >> 4 == 4;
}

/* How long a header of IPv4 is, with its options. */
static inline size_t header_length(const uint8_t *packet) {
    return (size_t)(packet[0] & 15) * 4;
}

/* Whether octets of a frame begin with a packet whose header is right (RFC 1812, 5.2.2; RFC 8200, 3). What follows the packet
 * in the frame is cut off. */
static inline int is_packet(const uint8_t *packet, size_t *length) {
    size_t total = 0;
    if (*length >= IPV4_HEADER && is_ipv4(packet)) {
        total = get_16(packet + 2);
        if (header_length(packet) < IPV4_HEADER || total < header_length(packet) || total > *length) return 0;
        if (checksum_of(0, packet, header_length(packet)) != 0) return 0;
    } else if (*length >= IPV6_HEADER && packet[0] >> 4 == 6) {
        total = (size_t)IPV6_HEADER + get_16(packet + 4);
    }
    if (total == 0 || total > *length) return 0;
    *length = total;
    return 1;
}

static inline struct iface_address source_of(const uint8_t *packet) {
    struct iface_address a = {is_ipv4(packet) ? 4 : 6, {0}};
    memcpy(a.octets, packet + (is_ipv4(packet) ? 12 : 8), is_ipv4(packet) ? 4 : 16);
    return a;
}

static inline struct iface_address destination_of(const uint8_t *packet) {
    struct iface_address a = {is_ipv4(packet) ? 4 : 6, {0}};
    memcpy(a.octets, packet + (is_ipv4(packet) ? 16 : 24), is_ipv4(packet) ? 4 : 16);
    return a;
}

static inline int is_link_local(const struct iface_address *a) {
    return a->version == 4 ? a->octets[0] == 169 && a->octets[1] == 254 : a->octets[0] == 0xfe && a->octets[1] >> 6 == 2;
}

/* Whether an address may be an end of a packet that is forwarded: of one host, and not of one link alone. Over IPv4 not of
 * 0/8, 127/8, 169.254/16, and none from 224.0.0.0 on (RFC 1812, 4.2.2.11 and 5.3.7; RFC 3927, 7). Over IPv6 not ::, ::1, nor one
 * of ff00::/8 and fe80::/10 (RFC 4291, 2.5). */
static inline int is_forwardable(const struct iface_address *a) {
    static const uint8_t zeros[15];
    if (is_link_local(a)) return 0;
    if (a->version == 4) return a->octets[0] != 0 && a->octets[0] != 127 && a->octets[0] < 224;
    return a->octets[0] != 0xff && (memcmp(a->octets, zeros, 15) != 0 || a->octets[15] > 1);
}

/* Whether an address of a network of IPv4 is the network's own, or its broadcast address (RFC 1812, 4.2.3.1 and 5.3.5). Of a
 * prefix of 31 or 32 bits there is neither (RFC 3021). */
static inline int is_end_of_network(const struct iface_address *a, uint8_t prefix_len) {
    if (a->version != 4 || prefix_len > 30) return 0;
    uint32_t mask = UINT32_MAX >> prefix_len, host = ((uint32_t)get_16(a->octets) << 16 | get_16(a->octets + 2)) & mask;
    return host == 0 || host == mask;
}

/* The option at an octet of a header of IPv4: how long it is, 0 where none is right (RFC 791, 3.1). */
static inline size_t option_length(const uint8_t *packet, size_t at) {
    size_t rest = header_length(packet) - at;
    if (packet[at] == 1) return 1;
    return packet[at] != 0 && rest > 1 && packet[at + 1] >= 2 && packet[at + 1] <= rest ? packet[at + 1] : 0;
}

/* Whether a packet names hosts to go by: loosely 131, strictly 137 (RFC 791, 3.1). */
static inline int has_source_route(const uint8_t *packet) {
    if (!is_ipv4(packet)) return 0;
    for (size_t at = IPV4_HEADER, n; at < header_length(packet) && (n = option_length(packet, at)) > 0; at += n)
        if (packet[at] == 131 || packet[at] == 137) return 1;
    return 0;
}

static inline uint8_t hop_limit_of(const uint8_t *packet) {
    return packet[is_ipv4(packet) ? 8 : 7];
}

/* Lowers the hop limit by one, and over IPv4 mends the checksum by the word that changed (RFC 1624, 3). */
static inline void lower_hop_limit(uint8_t *packet) {
    if (!is_ipv4(packet)) {
        packet[7]--;
        return;
    }
    uint32_t old = get_16(packet + 8), sum;
    packet[8]--;
    sum = (~(uint32_t)get_16(packet + 10) & 0xffff) + (~old & 0xffff) + get_16(packet + 8);
    sum = (sum & 0xffff) + (sum >> 16);
    put_16(packet + 10, ~((sum & 0xffff) + (sum >> 16)));
}

/* Whether a packet of IPv4 must not be cut. */
static inline int has_dont_fragment(const uint8_t *packet) {
    return (packet[6] & 0x40) != 0;
}

/* Where the payload of a packet of IPv6 begins, and its protocol, after the headers of extensions (RFC 8200, 4; RFC 4302, 2.2). 0
 * where they run out, and in a fragment but the first. */
static inline size_t after_extensions(const uint8_t *packet, size_t length, uint8_t *protocol) {
    size_t at = IPV6_HEADER;
    *protocol = packet[6];
    while (*protocol == 0 || *protocol == 43 || *protocol == FRAGMENT || *protocol == 51 || *protocol == 60) {
        if (at + 8 > length || (*protocol == FRAGMENT && get_16(packet + at + 2) >> 3 != 0)) return 0;
        size_t size = *protocol == FRAGMENT ? 8 : *protocol == 51 ? ((size_t)packet[at + 1] + 2) * 4
                                                                  : ((size_t)packet[at + 1] + 1) * 8;
        *protocol = packet[at];
        at += size;
    }
    return at < length ? at : 0;
}

/* Whether an error may be sent about a packet whose source and destination are hosts: not about a fragment but the first, nor
 * about an error or a redirect (RFC 1812, 4.3.2.7; RFC 4443, 2.4). None is sent where that can't be told. */
static inline int may_be_told(const uint8_t *packet, size_t length) {
    uint8_t protocol = packet[9];
    size_t at = header_length(packet);
    if (!is_ipv4(packet)) {
        at = after_extensions(packet, length, &protocol);
        return at > 0 && (protocol != ICMPV6 || (packet[at] >= 128 && packet[at] != 137));
    }
    if ((get_16(packet + 6) & 0x1fff) != 0) return 0;
    if (protocol != ICMP) return 1;
    return at < length && packet[at] != 3 && packet[at] != 4 && packet[at] != 5 && packet[at] != 11 && packet[at] != 12;
}

/* Writes an error about a packet, from an address to the packet's source: how long it is. It quotes as much as it may, with
 * which it has 576 octets over IPv4 (RFC 1812, 4.3.2.3) and 1280 over IPv6 (RFC 4443, 2.4). `number` is the last word of the
 * header, as the MTU of the link. */
static inline size_t write_error(uint8_t out[1280], const struct iface_address *from, const uint8_t *packet, size_t length,
                                 const uint8_t type_code[2], uint32_t number) {
    int is_v4 = is_ipv4(packet);
    size_t header = is_v4 ? IPV4_HEADER : IPV6_HEADER, room = (is_v4 ? 576 : 1280) - header - 8;
    size_t quoted = length < room ? length : room, size = is_v4 ? 4 : 16;
    uint8_t *message = out + header;
    memset(out, 0, header + 8);
    memcpy(out + (is_v4 ? 12 : 8), from->octets, size);
    memcpy(out + (is_v4 ? 16 : 24), packet + (is_v4 ? 12 : 8), size);
    if (is_v4) {
        out[0] = 0x45, out[8] = 64, out[9] = ICMP;
        put_16(out + 2, (uint32_t)(header + 8 + quoted));
        put_16(out + 10, checksum_of(0, out, header));
    } else {
        out[0] = 0x60, out[6] = ICMPV6, out[7] = 64;
        put_16(out + 4, (uint32_t)(8 + quoted));
    }
    memcpy(message, type_code, 2);
    put_16(message + 4, number >> 16), put_16(message + 6, number);
    memcpy(message + 8, packet, quoted);
    put_16(message + 2, checksum_of(is_v4 ? 0 : icmpv6_sum(out, 8 + quoted), message, 8 + quoted));
    return header + 8 + quoted;
}

/* Writes the fragment of a packet of IPv4 that begins at an octet of its payload, for packets of so many octets at most: how long
 * it is (RFC 791, 3.2). *at becomes the octet after it. But for the first it has just the options with the copied flag. */
static inline size_t write_fragment(uint8_t *out, const uint8_t *packet, size_t length, size_t mtu, size_t *at) {
    size_t whole = header_length(packet), header = *at == 0 ? whole : IPV4_HEADER, rest = length - whole - *at;
    memcpy(out, packet, header);
    for (size_t i = IPV4_HEADER, n; *at > 0 && i < whole && (n = option_length(packet, i)) > 0; i += n)
        if (packet[i] & 0x80) memcpy(out + header, packet + i, n), header += n;
    while (header % 4 != 0) out[header++] = 0;
    size_t taken = rest <= mtu - header ? rest : (mtu - header) / 8 * 8;
    uint32_t field = get_16(packet + 6);
    out[0] = (uint8_t)(0x40 | header / 4);
    put_16(out + 2, (uint32_t)(header + taken));
    put_16(out + 6, (field + (uint32_t)(*at / 8)) | (taken < rest ? 0x2000 : 0));
    put_16(out + 10, 0);
    put_16(out + 10, checksum_of(0, out, header));
    memcpy(out + header, packet + whole + *at, taken);
    *at += taken;
    return header + taken;
}

#endif
