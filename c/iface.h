/* A host on a network, for C: the interface layer with UDP, ICMP and raw sockets, and connections of TCP, over IPv4 and IPv6, on Ethernet or without a header of the link. Frames are handed over by the program and asked for by it;
 * the library opens no device, starts no thread and reads no clock.
 *
 * Each call answers by a code: IFACE_OK, or why it was refused. A refused call changes nothing, of the host and of
 * what the pointers point to. Where several reasons hold, the one answered is the first in the comment of the call; those
 * that a comment has for several calls come after. BAD_ARGUMENT comes before all of these, and NO_HOST right after it.
 * iface_new and iface_set_addresses have an order of their own.
 *
 * What the library does is proved: for a caller that keeps what follows there is no undefined behaviour, and each
 * call ends. What the caller promises, and nothing checks:
 *
 *  - A handle (struct iface) is set to IFACE_NONE before its first call, is only written by the calls below, and is
 *    not copied. It is in one call at a time; each call may be in another thread. Two handles share nothing.
 *  - No pointer is null, not even one to no octets. What a pointer points to is as long as is said, and nothing of it
 *    overlaps what another pointer of the same call points to, the handle included.
 *  - malloc, realloc and free are of one allocator, whose blocks are aligned as the C standard says, and no call is
 *    made where these may not be called, as in a signal handler or in the forked child of a process with threads.
 *  - There is room on the stack. On x86-64 iface_streams_new takes at most 6,560 octets of it, iface_new 5,100, iface_next
 *    5,670 and any other call 4,930; beside that comes what malloc and memcpy take. docs/PERFORMANCE.md lists them.
 */
#ifndef IFACE_H
#define IFACE_H

#include <stddef.h>
#include <stdint.h>

#ifdef __cplusplus
extern "C" {
#endif

/* What calls answer. */
enum iface_code {
    IFACE_OK = 0,            /* the call is done */
    IFACE_NO_HOST = 1,       /* the handle owns no host */
    IFACE_HAS_HOST = 2,      /* iface_new: the handle owns a host already */
    IFACE_BAD_ARGUMENT = 3,  /* a version of IP that is neither 4 nor 6, a prefix longer than the address, a medium, a
                                checksum, a control of a segment, a hop limit of 0 */
    IFACE_NO_MEMORY = 4,     /* malloc or realloc refused */
    IFACE_BAD_MTU = 5,       /* frame_len: not 590 to 1514 on Ethernet, 576 to 1514 without hardware addresses */
    IFACE_NOT_UNICAST = 6,   /* a hardware address, an own address or a server that can't be one */
    IFACE_BAD_MOMENT = 7,    /* a moment below 0 or above 2^62, that of a host's start, a route's end and a hold too */
    IFACE_BAD_ADDRESS = 8,   /* a destination that is unspecified, a group that is none, a socket's own that is no host's */
    IFACE_NOT_THERE = 9,     /* no such address, route or query, no own address; the medium has no hardware addresses */
    IFACE_TABLE_FULL = 10,   /* there is no room for another address, route or group, or for so many addresses; all sockets
                                are open, or as many queries are there as may be */
    IFACE_NO_SOCKET = 11,    /* no socket of this kind is open by this number; no connection has this name */
    IFACE_BAD_PORT = 12,     /* a port that is 0 */
    IFACE_TOO_LONG = 13,     /* a packet longer than is ever sent; too many codes of options, too long a name */
    IFACE_QUEUE_FULL = 14,   /* the socket's queue has no room for the packet: iface_next makes some, unless the packet is
                                longer than the whole queue */
    IFACE_EMPTY = 15,        /* no packet came; the socket doesn't wait; no packet was given up; no connection waits; no lease,
                                or no such option of it */
    IFACE_NO_ROOM = 16,      /* the room for a frame is shorter than IFACE_FRAME_ROOM, that for a packet than the packet */
    IFACE_BAD_TIMEOUT = 17,  /* reassembly_timeout: 0, or longer than a day */
    IFACE_BAD_VERSION = 18,  /* iface_new: the library isn't of this header's version */
    IFACE_NO_CLIENT = 19,    /* the handle owns no client of DHCP, or of DNS */
    IFACE_HAS_CLIENT = 20,   /* iface_dhcp_new, iface_dns_new: the handle owns a client already */
    IFACE_NO_STREAMS = 21,   /* the handle owns no connections of TCP */
    IFACE_HAS_STREAMS = 22,  /* iface_streams_new: the handle owns connections already */
    IFACE_IN_USE = 23,       /* iface_stream_connect: a connection has these ends */
    IFACE_BAD_NAME = 24,     /* iface_dns_start: the text is no name */
    IFACE_NO_SERVER = 25,    /* iface_dns_start: the client knows no server */
    IFACE_NO_ROUTE = 26      /* no network and no route of the host has the destination */
};

/* The version of this header, an octet each: 0.15.0, and the header's number, which grows with each change of a call or
 * a structure. iface_new refuses a library of another one; a program that compares it with iface_version() before its
 * first call learns of that earlier. */
#define IFACE_VERSION 0x000f0000u

/* The room that iface_receive and iface_next need for a frame, in octets. */
#define IFACE_FRAME_ROOM 1514

/* The last moment, in microseconds, and the instant that stands for none. */
#define IFACE_LAST_MOMENT ((int64_t)1 << 62)
#define IFACE_NEVER INT64_MAX

/* A handle, which owns a host or none. Its fields are the library's. */
typedef struct iface {
    uint64_t tag;
    void *at;
} iface;

/* A handle that owns none: iface host = IFACE_NONE; */
#define IFACE_NONE {0, NULL}

/* An address. */
struct iface_address {
    uint8_t version;    /* 4 or 6 */
    uint8_t octets[16]; /* in the order of the network: the first 4, or all 16 */
};

/* One end of a datagram. */
struct iface_endpoint {
    struct iface_address address;
    uint16_t port; /* in the order of the machine */
};

/* Any address, for the end at which a socket listens: struct iface_endpoint local = {IFACE_ANY, 7}; */
#define IFACE_ANY {0, {0}}

/* An own address with its network. */
struct iface_cidr {
    struct iface_address address;
    uint8_t prefix_len; /* how many bits of it are the network's */
};

/* How much the two queues of a socket hold: so many packets, with so many octets together. */
struct iface_rooms {
    uint32_t received_packets; /* of the queue for what comes */
    uint32_t received_octets;
    uint32_t to_send_packets; /* of the queue for what goes */
    uint32_t to_send_octets;
};

/* The same for both queues: struct iface_rooms rooms = IFACE_ROOMS(4, 2048); */
#define IFACE_ROOMS(packets, octets) {(packets), (octets), (packets), (octets)}

/* What waits in a queue of a socket, and what it holds at most. */
struct iface_queue {
    uint32_t packets;      /* how many wait */
    uint32_t octets;       /* how many they have together */
    uint32_t most_packets; /* how many it holds at most */
    uint32_t most_octets;  /* how many they have together at most */
    uint32_t first;        /* how many octets the first packet has, 0 where none waits */
};

/* A segment of TCP without its payload (RFC 9293, 3.1). */
struct iface_segment {
    struct iface_endpoint remote; /* where it came from, or goes to */
    uint32_t seq;                 /* its sequence number */
    uint32_t ack;                 /* its acknowledgement number, if it has one */
    uint16_t window;              /* its window as in the header, not scaled */
    uint8_t control;              /* enum iface_control */
    uint8_t has_ack;              /* not 0: it has an acknowledgement number */
};

/* What a segment does to its connection: the one flag of these that is set, if one is. */
enum iface_control { IFACE_TCP_DATA = 0, IFACE_TCP_PSH = 1, IFACE_TCP_SYN = 2, IFACE_TCP_FIN = 3, IFACE_TCP_RST = 4 };

/* In which directions a host computes checksums, by protocol; the link does the others. */
struct iface_checksums {
    uint8_t ipv4; /* of IPv4's headers: IFACE_BOTH, or another of enum iface_checksum */
    uint8_t udp;
    uint8_t tcp;
    uint8_t icmpv4;
    uint8_t icmpv6;
};

/* A rate: one in each interval, and so many at once. */
struct iface_rate {
    uint32_t interval; /* in microseconds; 0 sets no bound */
    uint32_t at_once;
};

/* The guard in front of a host on Ethernet: what it drops before the host sees it, what it leaves of what a frame changed, and
 * which answers to strangers it holds back. Each rule has its switch; a rate is off by an interval of 0. A comment ends with
 * what iface_config_init sets.
 *
 * A neighbour is confirmed if its entry ends later than that of a stranger would who comes now. While fewer than half of the
 * entries are confirmed, a neighbour's packet confirms it, and so does its answer to a request of the host. An entry that isn't
 * confirmed gives way to others before one that is. */
struct iface_guard {
    struct iface_rate echo_requests; /* echo requests of either ICMP, and fragments of ICMP, that the host gets to see: 0 and 0 */
    struct iface_rate errors;        /* errors of either ICMP (RFC 4443, 2.4). While a rate of these or of resets is used up,
                                        confirmed neighbours have as many: 10,000 and 10 */
    struct iface_rate resets;        /* resets of TCP, likewise: 10,000 and 10 */
    uint32_t strangers_stay;         /* how long a neighbour is known that isn't confirmed, in microseconds; 0: as long as any
                                        other, which is 60 s: 20,000,000 */
    uint8_t on;                      /* 0: there is no guard, as without hardware addresses: 1 */
    uint8_t own_addresses;           /* not 0: drops what claims an own address for another hardware address than the own one
                                        (RFC 5227, 2.4), or comes from one by another: 1 */
    uint8_t loops;                   /* not 0: drops datagrams of UDP from port 7, 13, 17 or 19 to a port below 1024: 1 */
    uint8_t fragments;               /* not 0: drops fragments: 0 */
    uint8_t turns;                   /* not 0: while a socket waits for its neighbour, no frame has the host ask for its sender
                                        within three seconds after one did, unless a socket asked since, or who was asked
                                        for is known: 1 */
    uint8_t reports;                 /* not 0: a query of IGMP or MLD doesn't take the place of an answer that waits, if that
                                        one has still to report the same, and no later, or if the query is about 224.0.0.1 or
                                        ff02::1: 1 */
    uint8_t routers;                 /* not 0: an advertisement from which no prefix and no router is learnt leaves the neighbours: 1 */
    uint8_t slots;                   /* not 0: half of the slots for fragments are kept for known neighbours: 1 */
    uint32_t longest_error;          /* an error may be so many times as long as the frame that it answers; 0 sets no bound: 3 */
    uint32_t defend;                 /* a claim of an own IPv4 address that is dropped is answered by an announcement of it (RFC 5227,
                                        2.4 c), unless one was in so many microseconds before; 0 announces nothing: 0 */
};

/* How a host is to be made: iface_config_init fills it in. */
struct iface_config {
    uint64_t seed;               /* of its random words, which need not be secret: another for each host and each start */
    uint64_t patience;           /* how long a packet waits for a neighbour that doesn't answer, in microseconds, before it
                                    is given up; 0 is for ever */
    uint64_t reassembly_timeout; /* how long fragments of a packet wait for the others, in microseconds: not 0, at most a
                                    day. Where no slot is left for another packet, one whose fragments have waited for half a
                                    second gives way to it, and the guard's `slots` keeps half of them for known neighbours */
    int64_t start;               /* the moment at which the host begins: from 0 to IFACE_LAST_MOMENT */
    uint32_t frame_len;          /* the longest frame of the link in octets, with a header of Ethernet and without its
                                    checksum: 1514 on usual Ethernet */
    uint32_t sockets;            /* how many may be open at once; memory for their places is taken at once */
    uint32_t neighbors;          /* how many neighbours it knows at once, of both versions together, in memory that is taken at
                                    once; 0 is four, without such memory. A new one replaces the one that ends first */
    uint32_t addresses;          /* for how many own addresses there is room, those from routers included: 4 to 16, and less
                                    is 4, more is 16 */
    uint32_t routes;             /* for how many routes there is room, at most 32, in memory that is taken at once; 0 is four,
                                    without such memory */
    uint32_t groups;             /* for how many groups there is room, at most 16: on Ethernet the solicited-node groups of own
                                    IPv6 addresses are among them */
    uint32_t prefixes;           /* how many prefixes of routers are kept, at most 8 */
    uint32_t routers;            /* how many routers are kept, at most 8 */
    uint32_t fragmented;         /* how many packets in fragments are put together at a time, each in a slot of memory that is
                                    taken at once; 0 is two, without such memory */
    uint32_t burst;              /* how many frames the link takes one after the other: the window in a segment of TCP is at
                                    most what so many carry; 0 sets no bound */
    uint8_t hardware_address[6]; /* on Ethernet; else it isn't read */
    uint8_t medium;              /* IFACE_ETHERNET or IFACE_IP */
    uint8_t slaac;               /* not 0: it takes IPv6 addresses and routes from routers (RFC 4862) */
    struct iface_checksums checksums; /* IFACE_BOTH for each: the host verifies and computes all */
    struct iface_guard guard;    /* on Ethernet; else it isn't read */
};

enum iface_medium { IFACE_ETHERNET = 0, IFACE_IP = 1 };

enum iface_checksum {
    IFACE_BOTH = 0,     /* verified on receipt, and computed when sending */
    IFACE_VERIFIED = 1, /* verified alone: what is sent has 0 in its place */
    IFACE_COMPUTED = 2, /* computed alone */
    IFACE_NEITHER = 3   /* neither */
};

/* What a host counted since it was made. A number stays at the greatest one. */
struct iface_counts {
    uint64_t frames_in;  /* frames that iface_receive took, without those that the guard dropped */
    uint64_t frames_out; /* frames that iface_receive and iface_next wrote */
    uint64_t given_up;   /* packets that were given up, of all sockets */
    uint64_t no_memory;  /* how often memory for a frame was refused in the middle of a round: what was to be sent waits */
};

/* How many frames a host's guard dropped, by the reason, and how many answers it held back. What is dropped isn't counted
 * among the frames that the host took. A number stays at the greatest one. */
struct iface_drops {
    uint64_t own_address;  /* messages that claim an own address */
    uint64_t own_source;   /* packets from an own address */
    uint64_t pinned;       /* messages that tell another hardware address of a pinned neighbour */
    uint64_t fragment;     /* fragments, and strangers' for which no slot is left, as half are kept for known neighbours */
    uint64_t loops;
    uint64_t echo_request; /* echo requests, and fragments of ICMP, beyond their rate */
    uint64_t error;        /* held back */
    uint64_t reset;        /* held back */
};

/* ---- hosts ---- */

/* Writes what most programs want: frames of 1514 octets on Ethernet, 8 sockets, 128 neighbours, no addresses from routers,
 * a patience of 3 s (three requests, a second apart: RFC 4861, 10), 16 slots for fragments, which wait 10 s, and a guard. The start is 0, the
 * seed is 0, and the hardware address all zeros: set the last two. */
void iface_config_init(struct iface_config *config);

/* What iface_new calls, with the version of the header that the program was built with. */
uint32_t iface_new_for(iface *host, const struct iface_config *config, uint32_t version);

/* Makes a host, which the handle owns from then on. BAD_VERSION, HAS_HOST, BAD_ARGUMENT (the medium, a checksum),
 * NOT_UNICAST (the hardware address), BAD_MTU, BAD_TIMEOUT, BAD_MOMENT (the start), NO_MEMORY: in this order. */
static inline uint32_t iface_new(iface *host, const struct iface_config *config) {
    return iface_new_for(host, config, IFACE_VERSION);
}

/* Frees a host, with its sockets and the frames that wait. The handle owns none from then on. NO_HOST. */
uint32_t iface_free(iface *host);

/* All calls below answer NO_HOST if the handle owns none. */

/* ---- addresses and groups ---- */

/* Adds an own address with its network, as 192.168.69.1 with 24, after the others, and forgets all neighbours. On
 * Ethernet the host joins the solicited-node group of an IPv6 address (RFC 4291, 2.7.1), if there is room for a group.
 * BAD_ARGUMENT, TABLE_FULL, NOT_UNICAST (neither unicast nor unspecified). */
uint32_t iface_add_address(iface *host, const struct iface_address *address, uint8_t prefix_len);

/* Takes out the first own address that is this one with this prefix, and forgets all neighbours.
 * BAD_ARGUMENT, NOT_THERE. */
uint32_t iface_remove_address(iface *host, const struct iface_address *address, uint8_t prefix_len);

/* Makes a list its own addresses, with their networks, and forgets all neighbours. TABLE_FULL (more than 16), BAD_ARGUMENT,
 * NO_HOST, TABLE_FULL (more than there is room for), NOT_UNICAST: in this order. */
uint32_t iface_set_addresses(iface *host, const struct iface_cidr *addresses, size_t count);

/* Writes the own address at a place of their list, from 0 on: those that came from routers stand there too. NOT_THERE. */
uint32_t iface_address_at(iface *host, uint32_t place, struct iface_address *address, uint8_t *prefix_len);

/* Writes the link-local address that a hardware address makes: fe80::/64 with its modified EUI-64 (RFC 4291, 2.5.1 and
 * appendix A; RFC 2464, 5). It needs no host. NOT_UNICAST (a group's hardware address). */
uint32_t iface_link_local(const uint8_t *hardware_address, struct iface_address *address);

/* Joins a group: from now on packets to it are taken, and iface_next tells routers of it (RFC 2236, RFC 3810). On Ethernet
 * the solicited-node groups of own addresses take room as well, if there was room for them. BAD_ARGUMENT, BAD_ADDRESS (no group's), TABLE_FULL. */
uint32_t iface_join_group(iface *host, const struct iface_address *group);

/* Leaves a group, if the host is in it. BAD_ARGUMENT, BAD_ADDRESS. */
uint32_t iface_leave_group(iface *host, const struct iface_address *group);

/* Writes 1 if the host is in a group, else 0, also where the address is no group's. Beside those that it joined, it is
 * in 224.0.0.1 (RFC 1112), and in ff02::1 and the solicited-node groups of its own addresses (RFC 4291, 2.8). Nothing
 * changes. BAD_ARGUMENT. */
uint32_t iface_has_group(iface *host, const struct iface_address *group, uint8_t *is);

/* ---- what is set while a host runs ----
 *
 * A call that writes a value changes nothing of the host. */

/* Sets the host's address on Ethernet, six octets: frames are sent from it from now on, and those to it are taken. Those
 * of a round that wait already are still from the one before. Own addresses and groups stay.
 * NOT_THERE (a medium without hardware addresses), NOT_UNICAST. */
uint32_t iface_set_hardware_address(iface *host, const uint8_t *address);

/* Writes the host's address on Ethernet, six octets. NOT_THERE (a medium without hardware addresses). */
uint32_t iface_hardware_address(iface *host, uint8_t *address);

/* Sets how long fragments of a packet wait for the others, in microseconds: not 0, at most a day. A packet whose first
 * fragment came before waits as long as was set then. BAD_TIMEOUT. */
uint32_t iface_set_reassembly_timeout(iface *host, uint64_t micros);

/* Writes how long fragments of a packet wait for the others, in microseconds. */
uint32_t iface_reassembly_timeout(iface *host, uint64_t *micros);

/* Sets whether addresses that are routed to the host count as its own: not 0, or 0, as at first. They are unicast
 * addresses whose best route is by a router with an own address of the host. */
uint32_t iface_set_any_ip(iface *host, uint8_t on);

/* Writes 1 if addresses that are routed to the host count as its own, else 0. */
uint32_t iface_any_ip(iface *host, uint8_t *on);

/* Writes the moment at which own addresses and routes were last made those that routers advertise (RFC 4862), and 0
 * before the first time. */
uint32_t iface_slaac_updated_at(iface *host, int64_t *at);

/* ---- routes ---- */

/* Sets the default route of the gateway's family, in place of the first one that is there, and puts it last.
 * BAD_ARGUMENT, TABLE_FULL. */
uint32_t iface_set_default_route(iface *host, const struct iface_address *gateway);

/* Adds a route to a network by a router, last in the list. The longest prefix wins, of equal ones the last. The router may
 * be of the other family: it is asked for by its own. BAD_ARGUMENT, TABLE_FULL. */
uint32_t iface_add_route(iface *host, const struct iface_address *network, uint8_t prefix_len,
                         const struct iface_address *router);

/* The same up to an end: the route is used until that moment, which is included, and stays in the table after it. With
 * IFACE_NEVER it has none. BAD_ARGUMENT, BAD_MOMENT, TABLE_FULL. */
uint32_t iface_add_route_until(iface *host, const struct iface_address *network, uint8_t prefix_len,
                               const struct iface_address *router, int64_t until);

/* Takes out the first route to a network. BAD_ARGUMENT, NOT_THERE. */
uint32_t iface_remove_route(iface *host, const struct iface_address *network, uint8_t prefix_len);

/* Writes the route at a place of their list, from 0 on, and the moment until which it is used, which is included:
 * IFACE_NEVER if it has no end. Those that came from routers stand there too. NOT_THERE. */
uint32_t iface_route_at(iface *host, uint32_t place, struct iface_address *network, uint8_t *prefix_len,
                        struct iface_address *router, int64_t *until);

/* Writes the own address that packets to a destination are sent from, where their socket names none. Over IPv4 it is the
 * first whose network has the destination, else the first one; over IPv6 the best one (RFC 6724, 5: rules 1, 2 and 8),
 * and ::1 where the host has none. BAD_ARGUMENT, NOT_THERE (no own address of IPv4). */
uint32_t iface_source_for(iface *host, const struct iface_address *remote, struct iface_address *source);

/* Writes the neighbour at a place of their list, from 0 on: its address, that on Ethernet, six octets, and the moment
 * from which the latter isn't known any more. At most as many stand there as the host knows at once, by rising
 * moments, those whose moment has passed too. Without hardware addresses there is none. NOT_THERE. */
uint32_t iface_neighbor_at(iface *host, uint32_t place, struct iface_address *address, uint8_t *hardware_address,
                           int64_t *until);

/* ---- sockets ---- */

/* Each of these opens a socket with a queue for what comes and one for what goes, which hold what `rooms` says (memory
 * for twice as many octets is taken), and writes the number that names it: the least that names none. What comes to a
 * full queue is dropped. BAD_ARGUMENT (a version), TABLE_FULL, NO_MEMORY. */

/* UDP (RFC 768) at a port of one address. At a port of any, of both versions, if the version of `local` is 0 as in
 * IFACE_ANY, or its address 0.0.0.0 or ::. Of the sockets that may get a datagram the one with the least number gets it,
 * and no other. To groups and broadcast addresses that is the first at the port, also if its own is one address.
 * BAD_PORT, BAD_ADDRESS (a group's, or 255.255.255.255). */
uint32_t iface_udp_open(iface *host, const struct iface_endpoint *local, const struct iface_rooms *rooms,
                        uint32_t *socket);

/* Whole packets of a version of IP and a protocol, which come to each such socket: over IPv4 those for other hosts too, in
 * frames that are taken. The header is written anew, in what comes and in what goes. Options, type of service,
 * identification and DF are lost, and of IPv6 traffic class and flow label. The time to live stays, also one of 0. */
uint32_t iface_raw_open(iface *host, uint8_t version, uint8_t protocol, const struct iface_rooms *rooms,
                        uint32_t *socket);

/* Echo messages of either ICMP with an identifier (RFC 792, RFC 4443). */
uint32_t iface_icmp_open_ident(iface *host, uint16_t ident, const struct iface_rooms *rooms, uint32_t *socket);

/* Port unreachables of either ICMP for datagrams of UDP from this port of the host. Port 0 isn't refused. */
uint32_t iface_icmp_open_port(iface *host, uint16_t port, const struct iface_rooms *rooms, uint32_t *socket);

/* Segments of TCP (RFC 9293) at a port of one address, or of any, as for UDP; from one end alone, or from each one if the
 * version of `remote` is 0 as in IFACE_ANY. The library hands segments in and out, and keeps no connection: it computes
 * and verifies checksums, and answers by a reset what no socket takes. Of the sockets that are for a segment the one with
 * the least number gets it: open one for one end before one for each. BAD_PORT (also the remote one), BAD_ADDRESS (also an
 * unspecified remote one). */
uint32_t iface_tcp_open(iface *host, const struct iface_endpoint *local, const struct iface_endpoint *remote,
                        const struct iface_rooms *rooms, uint32_t *socket);

/* Closes a socket of whatever kind: what waits in it is dropped. Its frames that a round has sent already are still handed
 * over by iface_next. NO_SOCKET. */
uint32_t iface_close(iface *host, uint32_t socket);

/* Sets the hop limit of the packets that a socket sends from now on, those that wait among them: 64 at first.
 * BAD_ARGUMENT (0), NO_SOCKET (also for a raw one, whose packets have their own headers). */
uint32_t iface_set_hop_limit(iface *host, uint32_t socket, uint8_t hop_limit);

/* Writes the hop limit of the packets that a socket sends. NO_SOCKET, as above. */
uint32_t iface_hop_limit(iface *host, uint32_t socket, uint8_t *hop_limit);

/* Writes what waits in the two queues of a socket of whatever kind: what was received, and what is to be sent.
 * NO_SOCKET. */
uint32_t iface_queues(iface *host, uint32_t socket, struct iface_queue *received, struct iface_queue *to_send);

/* Each of these queues a packet, which iface_next sends. NO_SOCKET, QUEUE_FULL. */

/* A datagram with this payload: over IPv4 of at most 4096 octets with its headers (28), in pieces if the link's
 * packets are shorter, over IPv6 of at most one packet of the link with its headers (48).
 * BAD_ARGUMENT, BAD_PORT, BAD_ADDRESS (unspecified), TOO_LONG, NO_ROUTE (one that is unicast; a route whose end has passed counts). */
uint32_t iface_udp_send(iface *host, uint32_t socket, const struct iface_endpoint *remote, const uint8_t *payload,
                        size_t payload_len);

/* A message of ICMP, over IPv4 of at most 4096 octets with its header (20), over IPv6 of at most one packet of the link
 * with its header (40). One that isn't an echo message of the address's family is dropped later.
 * BAD_ARGUMENT, BAD_ADDRESS (unspecified), TOO_LONG, NO_ROUTE (likewise). */
uint32_t iface_icmp_send(iface *host, uint32_t socket, const struct iface_address *remote, const uint8_t *message,
                         size_t message_len);

/* A packet with its header, which is written anew: one that isn't of the socket's version and protocol, or is too long to
 * be sent, is dropped later. */
uint32_t iface_raw_send(iface *host, uint32_t socket, const uint8_t *packet, size_t packet_len);

/* A segment from the socket's port, with its payload: over IPv4 of at most 4096 octets with its headers (40), over IPv6
 * of at most one packet of the link with its headers (60).
 * BAD_ARGUMENT (a control that is none), BAD_PORT, BAD_ADDRESS (unspecified), TOO_LONG. */
uint32_t iface_tcp_send(iface *host, uint32_t socket, const struct iface_segment *segment, const uint8_t *payload,
                        size_t payload_len);

/* A TCP socket sends nothing before this moment: 0 at first. BAD_MOMENT, NO_SOCKET. */
uint32_t iface_tcp_hold(iface *host, uint32_t socket, int64_t until);

/* From now on a TCP socket gets no segment: each that it would have got is answered by a reset, unless it is one. What
 * waits in its queues stays. NO_SOCKET. */
uint32_t iface_tcp_abort(iface *host, uint32_t socket);

/* Each of these takes the first packet that came, and writes it, how long it is and where it came from.
 * NO_SOCKET, EMPTY, NO_ROOM: then it stays. Room for the octets that the socket's queue holds is always enough. */

uint32_t iface_udp_receive(iface *host, uint32_t socket, struct iface_endpoint *remote, uint8_t *out, size_t room,
                           size_t *length);

/* A message of ICMP, from its type on. */
uint32_t iface_icmp_receive(iface *host, uint32_t socket, struct iface_address *remote, uint8_t *out, size_t room,
                            size_t *length);

/* A packet with its header. */
uint32_t iface_raw_receive(iface *host, uint32_t socket, uint8_t *out, size_t room, size_t *length);

/* A segment, and its payload. */
uint32_t iface_tcp_receive(iface *host, uint32_t socket, struct iface_segment *segment, uint8_t *out, size_t room,
                           size_t *length);

/* Each of these writes what the call above with `receive` in its name does, and leaves the packet there: nothing of the
 * host changes. NO_SOCKET, EMPTY, NO_ROOM. */
uint32_t iface_udp_peek(iface *host, uint32_t socket, struct iface_endpoint *remote, uint8_t *out, size_t room,
                        size_t *length);
uint32_t iface_icmp_peek(iface *host, uint32_t socket, struct iface_address *remote, uint8_t *out, size_t room,
                         size_t *length);
uint32_t iface_raw_peek(iface *host, uint32_t socket, uint8_t *out, size_t room, size_t *length);
uint32_t iface_tcp_peek(iface *host, uint32_t socket, struct iface_segment *segment, uint8_t *out, size_t room,
                        size_t *length);

/* ---- packets that wait for a neighbour ----
 *
 * The first packet of a socket waits until the hardware address of its next hop is known. Those after it for neighbours that
 * are known pass it, one a round, in their order; the others wait with it. One request goes in a second, for all sockets, in turn. After config.patience the packet is given up, and so are
 * those after it to the same address. Where others wait behind it, it is given up once the first request for its
 * neighbour wasn't answered for a second; at once, if its queue is full too and the socket gave up a packet within the
 * last ten seconds. */

/* Writes for whom the first packet of a socket waits, and since when, as of the last round. NO_SOCKET, EMPTY. */
uint32_t iface_waiting(iface *host, uint32_t socket, struct iface_address *remote, int64_t *since);

/* Writes the destination of the packet that a socket gave up last, once. NO_SOCKET, EMPTY. */
uint32_t iface_given_up(iface *host, uint32_t socket, struct iface_address *remote);

/* Writes how many packets were given up, of all sockets. */
uint32_t iface_given_up_count(iface *host, uint64_t *count);

/* ---- frames ----
 *
 * `now` is a moment in microseconds since an origin of the caller's choice, from 0 to IFACE_LAST_MOMENT. It may go
 * back. BAD_MOMENT. `room` is at least IFACE_FRAME_ROOM. NO_ROOM. */

/* Takes a frame of any octets, and writes the frame that is to be sent in response, of *length octets; none if that
 * is 0. A frame that the guard drops changes nothing but what the guard keeps, and is answered by the announcement of an
 * own address alone, if `defend` is set. */
uint32_t iface_receive(iface *host, int64_t now, const uint8_t *frame, size_t frame_len, uint8_t *out, size_t room,
                       size_t *length);

/* Writes the next frame that is to be sent, of *length octets; 0 says that the round sent nothing.
 *
 * Frames are sent in rounds: in a round what has ended is dropped, routers are told of groups, and each socket that has
 * something to send sends one packet, in the order of their numbers. A packet that goes in pieces is begun when no piece
 * of another one is left, so sockets take turns with such packets. The frames of a round wait in the library until
 * they are asked for, one a call; a call that finds none makes the next round. So no socket is passed over, however
 * seldom frames are asked for. Call it until *length is 0, and then ask iface_poll_at.
 * NO_MEMORY (before a round, if memory for a frame is refused). */
uint32_t iface_next(iface *host, int64_t now, uint8_t *out, size_t room, size_t *length);

/* Writes 1 if a socket may have changed by frames that were taken and rounds that were made since this was last asked,
 * else 0. It may have if a frame was taken that isn't empty, or if a round sent a packet of a socket, or dropped one as
 * too long. One that is dropped when its socket is asked for it, without a source or of a kind that the socket doesn't
 * send, isn't told of: iface_queues tells of it. What a socket gave up is told by iface_given_up. */
uint32_t iface_sockets_changed(iface *host, uint8_t *changed);

/* Writes what the host counted. */
uint32_t iface_counters(iface *host, struct iface_counts *counters);

/* Writes how many frames the host's guard dropped, by the reason, and how many answers it held back. */
uint32_t iface_guard_drops(iface *host, struct iface_drops *drops);

/* Writes the hardware address that the last frame came from which the guard dropped as claiming an own address, six octets,
 * and the moment at which it came (RFC 5227, 2.4). NOT_THERE (no such frame came). */
uint32_t iface_guard_conflict(iface *host, uint8_t *hardware_address, int64_t *at);

/* Pins a neighbour to a hardware address, six octets, in place of the one that it is pinned to. The guard drops ARP packets and
 * neighbour messages of it that tell another one, as long as it is on. An entry with another one expires at once. The host learns
 * the address from the next message that tells this one, and asks for it as for any other. BAD_ARGUMENT (the version), NOT_UNICAST (one of the two), TABLE_FULL (eight
 * others are pinned). */
uint32_t iface_guard_pin(iface *host, const struct iface_address *address, const uint8_t *hardware_address);

/* Pins a neighbour no more. BAD_ARGUMENT, NOT_THERE (it isn't pinned). */
uint32_t iface_guard_unpin(iface *host, const struct iface_address *address);

/* Writes the hardware address that the last frame came from which the guard dropped for telling another hardware address of a
 * pinned neighbour, and the moment at which it came. NOT_THERE (no such frame came). */
uint32_t iface_guard_pinned_conflict(iface *host, uint8_t *hardware_address, int64_t *at);

/* Writes the instant at which iface_next is to be called again, if no frame comes before and no call changes the host:
 * one that has passed, if something is due at once, and IFACE_NEVER, if nothing is due. */
uint32_t iface_poll_at(iface *host, int64_t now, int64_t *at);

/* ---- DHCP ----
 *
 * A client leases an IPv4 address for a host (RFC 2131), which needs no address before: port 68 is the client's. The program
 * calls iface_dhcp_poll after each frame that it hands over, and at the instant of iface_dhcp_poll_at, and then iface_next;
 * and iface_dhcp_apply when there is an event. A handle of a client (iface_dhcp) is kept as that of a host: set to IFACE_DHCP_NONE
 * before its first call, not copied, and in one call at a time. It goes with the host that it was made for.
 *
 * The client takes two places for sockets: one for its UDP socket, and one for a raw socket, which is open while a message to all
 * servers waits to be sent and, from the first one on, as long as there is no lease and the host has no IPv4 address: by it the client
 * takes answers to the address that a server offers. A socket that gets nothing keeps that place meanwhile. A program that calls none of these is linked without
 * any of it by --gc-sections. */

/* A handle, which owns a client or none. Its fields are the library's. */
typedef struct iface_dhcp {
    uint64_t tag;
    void *at;
} iface_dhcp;

/* A handle that owns none: iface_dhcp client = IFACE_DHCP_NONE; */
#define IFACE_DHCP_NONE {0, NULL}

/* What a server leased. An address that the server didn't tell has version 0. */
struct iface_lease {
    struct iface_address address;
    struct iface_address router;         /* of the default route; where routes are told, of that among them, or none (RFC 3442) */
    struct iface_address server;         /* the one that leased it */
    struct iface_address dns_servers[3]; /* of names, from the first place on */
    uint8_t prefix_len;                  /* how many bits of the address are the network's: 32 without a mask */
    uint16_t mtu;                        /* the longest packet of the network, 68 octets or more; 0 if the server didn't tell it */
    int64_t expires_at;                  /* when it ends, unless it is renewed before; IFACE_NEVER for a lease without end */
};

/* What has become of a lease. */
enum iface_dhcp_event {
    IFACE_DHCP_NOTHING = 0,     /* nothing, since the last call */
    IFACE_DHCP_CONFIGURED = 1,  /* there is a lease: a new one, or one that was renewed */
    IFACE_DHCP_DECONFIGURED = 2 /* there is none any more, or it was declined: its address must not be used */
};

/* Makes a client for a host with a hardware address, which the handle owns from then on. The seed is of the numbers by which its
 * messages are known, another for each host and each start. `known` is an address that the host had before, which the client
 * asks for first, or IFACE_ANY.
 * HAS_CLIENT, BAD_ARGUMENT (a version of `known` that is neither 0 nor 4), NO_HOST, NOT_THERE (a medium without hardware
 * addresses), TABLE_FULL (no two sockets are left), NO_MEMORY. */
uint32_t iface_dhcp_new(iface_dhcp *client, iface *host, uint64_t seed, const struct iface_address *known);

/* Sets the codes of the options that servers are asked for, in place of those before, in all messages from then on. The client asks
 * for 1, 3, 6, 26 and 121 itself. NO_CLIENT, TOO_LONG (more than 16). */
uint32_t iface_dhcp_parameters(iface_dhcp *client, const uint8_t *codes, size_t count);

/* Sets the name of the host, which is in all messages from then on (RFC 2132, 3.14); none, of no octets, is told at first.
 * NO_CLIENT, TOO_LONG (more than 63 octets). */
uint32_t iface_dhcp_host_name(iface_dhcp *client, const char *name, size_t length);

/* Does what is due: the client takes what came to port 68, a message that is to be sent now is queued, and what has become of
 * the lease is written. A message for which there is no room or no memory counts as lost, and is sent again later.
 * NO_CLIENT, NO_HOST, BAD_MOMENT, NO_SOCKET (the host hasn't the client's socket). */
uint32_t iface_dhcp_poll(iface_dhcp *client, iface *host, int64_t now, uint32_t *event);

/* Writes the instant at which iface_dhcp_poll is to be called again, if nothing comes before: IFACE_NEVER only for a lease
 * without end. NO_CLIENT. */
uint32_t iface_dhcp_poll_at(iface_dhcp *client, int64_t *at);

/* Writes the code for which the message that was due last is lost, or 0 if it isn't: NO_MEMORY (for the raw socket), QUEUE_FULL (the
 * message before still waits, as for its server's neighbour), TABLE_FULL (other sockets took the place while memory was refused), NO_SOCKET. The
 * next message is due at the instant of iface_dhcp_poll_at. NO_CLIENT. */
uint32_t iface_dhcp_lost(iface_dhcp *client, uint32_t *why);

/* Writes the lease that the client has. NO_CLIENT, EMPTY (it has none, or tests its address). */
uint32_t iface_dhcp_lease(iface_dhcp *client, struct iface_lease *lease);

/* Writes the octets of an option of the lease, put together (RFC 3396), and how many there are. Of more than 256 the first ones count.
 * NO_CLIENT, EMPTY (no lease, or no such option), NO_ROOM. */
uint32_t iface_dhcp_option(iface_dhcp *client, uint8_t code, uint8_t *out, size_t room, size_t *length);

/* Gives the host the address of the lease with its network, its router as a default route, and up to eight other routes of option 121
 * (RFC 3442), after the others; in place of those that the client gave it before, and none without a lease. That forgets all
 * neighbours, unless address, network and router are the same as before. Other addresses and routes stay. A route of option 121 is
 * left out where there is no room for it, and where its router is 0.0.0.0, which says that its network is on the link.
 * NO_CLIENT, NO_HOST, TABLE_FULL, NOT_UNICAST (one of all own addresses can't be one). */
uint32_t iface_dhcp_apply(iface_dhcp *client, iface *host);

/* Lets the address of each lease be tested before it is used, and announced (RFC 2131 4.4.1, RFC 5227 2.1.1, 2.3), unless it is 0. It
 * is on by default. Three ARP probes then go, the first one within a second, then a second or two apart. Two seconds later, if no other
 * host has the address or probes for it, iface_dhcp_poll tells IFACE_DHCP_CONFIGURED, and two announcements go, two seconds apart.
 * Otherwise the client declines the lease (DHCPDECLINE), and asks for offers after ten seconds, or after a minute from the tenth on. A
 * probe of another host for the address in use is answered by an announcement, one each two seconds at most. Where it is off, a host
 * has its address four to seven seconds sooner, and nobody is asked. It belongs behind iface_dhcp_new. NO_CLIENT. */
uint32_t iface_dhcp_set_probing(iface_dhcp *client, uint8_t on);

/* Writes how many leases the client has declined, 255 at most. NO_CLIENT. */
uint32_t iface_dhcp_declined(iface_dhcp *client, uint8_t *count);

/* Releases the lease (DHCPRELEASE): the message to its server waits at the client's UDP socket, and the lease is given up. Call iface_next
 * until it has gone, then iface_dhcp_apply, which takes the address, and iface_dhcp_free: a client that is polled again asks for offers.
 * iface_dhcp_lost tells why the message is lost. NO_CLIENT, NO_HOST, EMPTY (no lease). */
uint32_t iface_dhcp_release(iface_dhcp *client, iface *host);

/* Is called once a link came up. Gives up the lease, if there is one, and asks for its address again (RFC 2131, 3.2): where the link
 * leads to another network the server refuses it, and the client asks for offers. Without a lease the client begins anew. The next
 * iface_dhcp_poll tells of a lease that is gone. NO_CLIENT. */
uint32_t iface_dhcp_reset(iface_dhcp *client);

/* Frees a client: the handle owns none from then on. If the other handle owns a host, the client's sockets there are closed. What
 * the client gave the host stays: call iface_dhcp_reset and iface_dhcp_apply before. NO_CLIENT. */
uint32_t iface_dhcp_free(iface_dhcp *client, iface *host);

/* ---- DNS ----
 *
 * A client asks servers for the addresses of names (RFC 1035, RFC 3596), as many at once as it was made for. The program calls
 * iface_dns_poll after iface_dns_start, after each frame that it hands over, and at the instant of iface_dns_poll_at, and then
 * iface_next. A handle of a client (iface_dns) is kept as that of a host: set to IFACE_DNS_NONE before its first call, not copied,
 * and in one call at a time. It goes with one host.
 *
 * A query has a UDP socket of its own as long as it waits, at a random port from 49152 on: as many places for sockets have to be
 * free. The servers are asked one behind the other, and then again, from that on which answered last: each has two seconds to
 * answer, three when it is asked for the second time, and five from then on. One that fails or refuses has no more time (RFC 1034,
 * 5.3.3), and a question that waits for a server's hardware address gives way to the next one: the query's socket is closed, and
 * another one opened. Ten seconds for each server after it began a query has failed. Memory is taken when the client is made, when
 * its servers are set, and for the socket of a query, whose memory is freed with it. Without memory for another one the query has
 * none, and fails in time. A program that calls none of these is linked without any of it by --gc-sections. */

/* A handle, which owns a client or none. Its fields are the library's. */
typedef struct iface_dns {
    uint64_t tag;
    void *at;
} iface_dns;

/* A handle that owns none: iface_dns names = IFACE_DNS_NONE; */
#define IFACE_DNS_NONE {0, NULL}

/* How many servers a client has at most, and how many addresses a result. */
#define IFACE_DNS_SERVERS 3
#define IFACE_DNS_ADDRESSES 4

/* What is asked of a name. */
enum iface_dns_type {
    IFACE_DNS_A = 1,    /* its IPv4 addresses */
    IFACE_DNS_AAAA = 28 /* its IPv6 addresses */
};

/* What has become of a query. */
enum iface_dns_state {
    IFACE_DNS_PENDING = 0,          /* it waits for an answer */
    IFACE_DNS_FOUND = 1,            /* the name has addresses */
    IFACE_DNS_NO_SUCH_NAME = 2,     /* there is no such name (RCODE 3) */
    IFACE_DNS_SERVER_FAILURE = 3,   /* all servers failed, or refused: any other RCODE but 0 */
    IFACE_DNS_TRUNCATED = 4,        /* the answer didn't fit in one message (TC), and what did has no address */
    IFACE_DNS_NO_ADDRESS = 5,       /* the name has no address of the type that was asked for */
    IFACE_DNS_TOO_MANY_ALIASES = 6, /* the name is an alias of an alias, and so on more than eight times */
    IFACE_DNS_TIMED_OUT = 7,        /* no server answered */
    IFACE_DNS_FOUND_TRUNCATED = 8   /* the name has addresses, in an answer that didn't fit in one message (TC): it may have others */
};

/* A query, and what it found. */
struct iface_dns_answer {
    uint32_t state;                    /* of enum iface_dns_state */
    struct iface_address addresses[4]; /* the first addresses of the name, from the first place on; version 0 in the others */
};

/* Makes a client for so many queries at once, which the handle owns from then on. `key` is 16 random octets, a secret: the numbers
 * and ports of queries come from it, and who doesn't know it can't tell the next ones from those before (RFC 5452, 9.2). `servers`
 * is an array of IFACE_DNS_SERVERS addresses, in the order in which they are asked. Those of version 0, as IFACE_ANY, are left out;
 * so the servers of a lease may be handed over as they are.
 * HAS_CLIENT, BAD_ARGUMENT (a server whose version is neither 0, 4 nor 6), NOT_UNICAST (an address that no other host can have: a
 * group's, a loopback one, one of 0.0.0.0/8 or 240.0.0.0/4), NO_MEMORY. */
uint32_t iface_dns_new(iface_dns *dns, uint32_t queries, const uint64_t *key, const struct iface_address *servers);

/* Sets the servers, as iface_dns_new has them, in place of those before. Queries that wait go on with the new ones: each asks the
 * one whose turn it is, and no answer of another counts; without a server they time out. BAD_ARGUMENT, NO_CLIENT, NOT_UNICAST,
 * NO_MEMORY. */
uint32_t iface_dns_servers(iface_dns *dns, const struct iface_address *servers);

/* Starts a query for a name, as "www.example.com" with 15: `length` octets, of which a dot at the end is left out. Labels between
 * dots have 1 to 63 octets of any value, and the name is at most 253 octets long (RFC 1035, 2.3.4). `query_type` is of
 * enum iface_dns_type. Writes the query's number, the least that names none. The query stays until it is cancelled. A name that is an
 * address in text, as "192.0.2.1" or "2001:db8::1", asks nobody: its query has the result at once.
 * BAD_ARGUMENT (the type), NO_CLIENT, NO_HOST, BAD_MOMENT, BAD_NAME (a label that is empty or too long, or too long a name), NO_SERVER,
 * TABLE_FULL (each number names a query; all sockets are open), NO_MEMORY. */
uint32_t iface_dns_start(iface_dns *dns, iface *host, int64_t now, const char *name, size_t length, uint32_t query_type,
                         size_t *query);

/* Does what is due: queries take what came to their sockets, queue what they send now, and give up after their time. The socket of a
 * query that waits no longer is closed. A message for which there is no room counts as lost. NO_CLIENT, NO_HOST, BAD_MOMENT. */
uint32_t iface_dns_poll(iface_dns *dns, iface *host, int64_t now);

/* Writes the instant at which iface_dns_poll is to be called again, if nothing comes before and no query is started: one that has
 * passed, if something is due at once, and IFACE_NEVER, if no query waits. NO_CLIENT. */
uint32_t iface_dns_poll_at(iface_dns *dns, int64_t *at);

/* Writes what has become of a query. An answer counts only if it comes from the server that was asked last, from its port 53, to the
 * query's port, with the query's number and its question (RFC 5452, 9.1). NO_CLIENT, NOT_THERE (the number names no query). */
uint32_t iface_dns_result(iface_dns *dns, size_t query, struct iface_dns_answer *result);

/* Ends a query, whatever has become of it, and closes its socket if that is still open: its number names none from then on.
 * NO_CLIENT, NO_HOST, NOT_THERE (the number names no query). */
uint32_t iface_dns_cancel(iface_dns *dns, iface *host, size_t query);

/* Frees a client with its queries: the handle owns none from then on. If the other handle owns a host, their sockets there are
 * closed. NO_CLIENT. */
uint32_t iface_dns_free(iface_dns *dns, iface *host);

/* ---- connections of TCP ----
 *
 * A state machine of TCP (RFC 9293) for a host: it listens, connects, sends again what was lost, and keeps what came until the program
 * reads it. A handle (iface_streams) owns all connections of a host. It is kept as that of a host: set to IFACE_STREAMS_NONE before
 * its first call, not copied, and in one call at a time. It goes with the host that it was made for.
 *
 * The program calls iface_streams_poll after each frame that it hands over, after calls that write, close or abort, and at the instant
 * of iface_streams_poll_at; and then iface_next. Memory is taken when connections are made, and where one listens, and never later.
 *
 * Two raw sockets of the host for each family carry the segments. Leave these to the library: they aren't to be closed. While they
 * are there each segment that belongs to no connection is answered by a reset, also one that comes to a socket of iface_tcp_open. A
 * program that calls none of these is linked without any of it. */

/* A handle, which owns connections or none. Its fields are the library's. */
typedef struct iface_streams {
    uint64_t tag;
    void *at;
} iface_streams;

/* A handle that owns none: iface_streams tcp = IFACE_STREAMS_NONE; */
#define IFACE_STREAMS_NONE {0, NULL}

/* How connections are to be made: iface_streams_config_init fills it in, but for the two secrets. */
struct iface_streams_config {
    uint8_t number_key[32];    /* a secret of random octets, by which initial numbers can't be guessed (RFC 6528) */
    uint64_t table_key[2];     /* another one, by which nobody chooses ends that are slow to find */
    uint64_t keep_alive;       /* how long nothing arrives before a peer is probed; 0 for never: 0 */
    uint64_t accepted_keep_alive; /* the same for a peer that asked for the connection; 0 for never: 120,000,000 */
    uint64_t timeout;          /* how long a peer may leave what was sent unanswered, and unacknowledged while its window has room
                                  for it; 0 for twelve tries: 0 */
    uint64_t ack_delay;        /* how long an acknowledgement of octets in order may wait: 10,000 */
    uint64_t shortest_timeout; /* the shortest time after which something is sent again: 200,000 */
    uint64_t time_wait;        /* how long TIME-WAIT lasts: 60,000,000 */
    uint64_t release_timeout;  /* how long a connection may go on that was released, before it ends in a reset, whatever its peer
                                  does: 120,000,000. All of these are in microseconds */
    uint32_t places;           /* how many connections there are at most, from 1 to 2^30: 8 */
    uint32_t send_room;        /* how many octets each may hold that aren't acknowledged, at most 2^30: 4,096 */
    uint32_t receive_room;     /* how many octets each may hold that aren't read, at most 2^30: 4,096 */
    uint32_t packets;          /* how many packets wait between the connections and the host, each way and family: 8 */
    uint32_t packet_octets;    /* how many octets they have together: 1,536 */
    uint32_t far_octets;       /* how many octets packets have together that wait for peers that haven't answered, of which
                                  at most 16 do: 1,024 */
    uint8_t ipv4;              /* not 0: over IPv4: 1 */
    uint8_t ipv6;              /* not 0: over IPv6: 1 */
    uint8_t nagle;             /* not 0: short segments wait while something is unacknowledged: 1 */
    uint8_t congestion_control; /* not 0: a congestion window narrows what is sent: 1 */
};

/* The name of a connection, which may be copied. Once the program has released it, it names nothing. */
struct iface_stream {
    size_t place;
    uint64_t generation;
};

/* The states of a connection (RFC 9293, 3.3.2). From IFACE_CLOSE_WAIT on the peer's end came: what came before can still be read, and
 * nothing more comes. */
enum iface_stream_state {
    IFACE_CLOSED = 0, /* it is gone; what came before can still be read */
    IFACE_LISTEN = 1, /* no connection is ever in it: a listener is something else */
    IFACE_SYN_SENT = 2,
    IFACE_SYN_RECEIVED = 3,
    IFACE_ESTABLISHED = 4,
    IFACE_FIN_WAIT_1 = 5,
    IFACE_FIN_WAIT_2 = 6,
    IFACE_CLOSE_WAIT = 7,
    IFACE_CLOSING = 8,
    IFACE_LAST_ACK = 9,
    IFACE_TIME_WAIT = 10
};

/* Why a connection ended before both sides had closed. */
enum iface_stream_ending {
    IFACE_NOT_CUT = 0,   /* it didn't */
    IFACE_BY_PEER = 1,   /* the peer sent a reset */
    IFACE_REFUSED = 2,   /* the peer answered the SYN by a reset */
    IFACE_TIMED_OUT = 3, /* what was sent stayed unacknowledged, or the peer didn't answer probes */
    IFACE_ABORTED = 4,   /* the program aborted, or the own address is gone */
    IFACE_UNREACHABLE = 5 /* the peer can't be reached: its neighbour doesn't answer, or a message of ICMP says so while it is being opened, or
                             one did after which nothing came until it timed out */
};

/* Writes what most programs want: the values in the comments above, and zeros for the two secrets, which the program sets: iface_streams_new
 * refuses zeros. */
void iface_streams_config_init(struct iface_streams_config *config);

/* Makes connections for a host, which the handle owns from then on, and opens two raw sockets of the host for each family. Segments
 * are as long as the link carries: 40 octets less than its longest packet over IPv4, 60 over IPv6.
 * HAS_STREAMS, BAD_ARGUMENT (a number that is out of range, neither family, or a secret of zeros), NO_HOST, TABLE_FULL (the host has no places for
 * the sockets), NO_MEMORY. */
uint32_t iface_streams_new(iface_streams *tcp, iface *host, const struct iface_streams_config *config);

/* Does what is due: the connections take what came, and what they send is queued. That may end one, by a time-out: look at
 * iface_stream_state between this and sleeping. NO_STREAMS, NO_HOST, BAD_MOMENT. */
uint32_t iface_streams_poll(iface_streams *tcp, iface *host, int64_t now);

/* Writes the instant at which iface_streams_poll is to be called again, if nothing comes before and no call changes a connection:
 * one that has passed, if something is due at once, and IFACE_NEVER, if nothing is due. NO_STREAMS. */
uint32_t iface_streams_poll_at(iface_streams *tcp, int64_t *at);

/* Frees all connections without a word to their peers: the handle owns none from then on. If the other handle owns a host, their
 * sockets there are closed. NO_STREAMS. */
uint32_t iface_streams_free(iface_streams *tcp, iface *host);

/* All calls below answer NO_STREAMS if the handle owns none. */

/* Listens at a port of one local address; of any, if the version of `local` is 0 as in IFACE_ANY, or its address 0.0.0.0 or ::. At
 * most `backlog` handshakes are under way, and as many connections wait to be accepted; 0 counts as 1. SYNs beyond are answered by
 * cookies. Writes the listener's number, from 0 on. Of listeners at one port the first one gets the connections.
 * BAD_ARGUMENT, BAD_PORT, BAD_ADDRESS (not unicast), NO_MEMORY. */
uint32_t iface_stream_listen(iface_streams *tcp, const struct iface_endpoint *local, uint32_t backlog, size_t *listener);

/* Takes the connection of a listener that waits longest, and writes its name. EMPTY (none waits, or there is no such listener). */
uint32_t iface_stream_accept(iface_streams *tcp, size_t listener, struct iface_stream *stream);

/* Writes the name of a connection of the program at which something changed, by frames and timers, since this call wrote it last:
 * octets became readable, room to write came back, or the state is another one, also where the peer's end came or the connection
 * ended. One that was accepted counts as changed. Each is written once until it changes again, and those that changed first come
 * first: so after iface_streams_poll ask until there is none, and look at these alone. EMPTY (none has changed). */
uint32_t iface_streams_changed(iface_streams *tcp, struct iface_stream *stream);

/* Closes a listener: a SYN for it is answered by a reset from then on, unless another one listens there. Handshakes under way end in a
 * reset once they are complete, and connections that wait can still be accepted. Its number is given to no other listener, and its
 * memory is freed with the connections. NOT_THERE (no listener has this number). */
uint32_t iface_stream_close_listener(iface_streams *tcp, size_t listener);

/* Opens a connection to a peer, from a port of one own address; or of the one that iface_source_for writes, if that of `local` is
 * none. Writes its name. The next iface_streams_poll sends the SYN, and iface_stream_state tells what becomes of it. An address of
 * `local` that the host doesn't have ends it then, as if aborted.
 * BAD_ARGUMENT, NO_STREAMS, NO_HOST, BAD_MOMENT, BAD_PORT (also the peer's), NOT_THERE (no own address of this family), BAD_ADDRESS
 * (one that isn't unicast, or they are of two families), NO_ROUTE, IN_USE (choose another port), TABLE_FULL (each place has a connection,
 * none is half-open, and none that was released is in TIME-WAIT). */
uint32_t iface_stream_connect(iface_streams *tcp, iface *host, int64_t now, const struct iface_endpoint *local,
                              const struct iface_endpoint *remote, struct iface_stream *stream);

/* All calls below answer NO_SOCKET if the name names no connection. */

/* Queues the first octets, as many as there is room for, and writes how many: 0 once the program closed, or the connection is gone.
 * Where it is 0, iface_streams_poll_at says what it said before. */
uint32_t iface_stream_send(iface_streams *tcp, const struct iface_stream *stream, const uint8_t *octets, size_t length,
                           size_t *count);

/* Takes the octets that came, in order and as many as there is room for, and writes how many: 0 where none came, and where no more
 * come, which iface_stream_state tells apart. Where it is 0, iface_streams_poll_at says what it said before. */
uint32_t iface_stream_receive(iface_streams *tcp, const struct iface_stream *stream, uint8_t *out, size_t room,
                              size_t *count);

/* Writes what the call above does, and leaves the octets there. */
uint32_t iface_stream_peek(iface_streams *tcp, const struct iface_stream *stream, uint8_t *out, size_t room, size_t *count);

/* Closes: the end follows what was written. The program may still read. One whose handshake isn't complete is gone. */
uint32_t iface_stream_close(iface_streams *tcp, const struct iface_stream *stream);

/* Aborts: the connection is gone, and a peer that knows of it gets a reset. */
uint32_t iface_stream_abort(iface_streams *tcp, const struct iface_stream *stream);

/* Lets go of a connection: its name names nothing from then on. It is aborted if the peer may still send; else it ends by itself. So
 * a program that closes reads until the end before it releases. Each connection is to be released, also one that is gone. */
uint32_t iface_stream_release(iface_streams *tcp, const struct iface_stream *stream);

/* Writes the state, of enum iface_stream_state. */
uint32_t iface_stream_state(iface_streams *tcp, const struct iface_stream *stream, uint32_t *state);

/* Writes why it ended before both sides had closed, of enum iface_stream_ending. */
uint32_t iface_stream_ending(iface_streams *tcp, const struct iface_stream *stream, uint32_t *ending);

/* Writes the two ends: the own one, and the peer's. NOT_THERE (it has none any more). */
uint32_t iface_stream_ends(iface_streams *tcp, const struct iface_stream *stream, struct iface_endpoint *local,
                           struct iface_endpoint *remote);

/* Writes how many octets iface_stream_send takes now, and how many iface_stream_receive writes. */
uint32_t iface_stream_rooms(iface_streams *tcp, const struct iface_stream *stream, size_t *writable, size_t *readable);

/* Each of these sets what the field of its name in the configuration says, for one connection from now on. */
uint32_t iface_stream_set_nagle(iface_streams *tcp, const struct iface_stream *stream, uint8_t on);
uint32_t iface_stream_set_ack_delay(iface_streams *tcp, const struct iface_stream *stream, uint64_t micros);
uint32_t iface_stream_set_keep_alive(iface_streams *tcp, const struct iface_stream *stream, uint64_t micros);
uint32_t iface_stream_set_timeout(iface_streams *tcp, const struct iface_stream *stream, uint64_t micros);

/* Sets how many routers the packets of one connection may pass, from the next one on (RFC 9293, 3.9.2). Each begins with 64.
 * BAD_ARGUMENT (0). */
uint32_t iface_stream_set_hop_limit(iface_streams *tcp, const struct iface_stream *stream, uint8_t hop_limit);

/* ---- the library ---- */

/* The version of the header that the library was built with. */
uint32_t iface_version(void);

/* The library's name, version and commit, as "fumitorygate 0.14.0 (8e6aa25f6c2d)". */
const char *iface_build(void);

/* What a code says, as "the queue is full"; "unknown code" for a number that is none. */
const char *iface_strerror(uint32_t code);

#ifdef __cplusplus
}
#endif

#if defined(__STDC_VERSION__) && __STDC_VERSION__ >= 201112L
_Static_assert(sizeof(struct iface_address) == 17 && sizeof(struct iface_endpoint) == 20, "as the library lays them out");
_Static_assert(sizeof(struct iface_config) == 136 && sizeof(iface) == 16, "as the library lays them out");
_Static_assert(sizeof(struct iface_cidr) == 18 && sizeof(struct iface_counts) == 32, "as the library lays them out");
_Static_assert(sizeof(struct iface_queue) == 20 && sizeof(struct iface_checksums) == 5, "as the library lays them out");
_Static_assert(sizeof(struct iface_rate) == 8 && sizeof(struct iface_guard) == 44, "as the library lays them out");
_Static_assert(sizeof(struct iface_drops) == 64, "as the library lays them out");
_Static_assert(sizeof(struct iface_lease) == 120 && sizeof(iface_dhcp) == 16, "as the library lays them out");
_Static_assert(sizeof(struct iface_dns_answer) == 72 && sizeof(iface_dns) == 16, "as the library lays them out");
_Static_assert(sizeof(struct iface_streams_config) == 136 && sizeof(iface_streams) == 16, "as the library lays them out");
_Static_assert(sizeof(struct iface_stream) == 16, "as the library lays them out");
_Static_assert(sizeof(struct iface_rooms) == 16 && sizeof(struct iface_segment) == 32, "as the library lays them out");
#endif

#endif
