/* Wrong use, as far as C can ask it: each call must refuse by its code, change nothing, and leave the host usable. */
#include "iface.h"

#include <stdio.h>
#include <string.h>

static int failures, checks;

static void wants(const char *what, uint64_t got, uint64_t want) {
    checks++;
    if (got == want) return;
    failures++;
    printf("WRONG: %s: %llu, not %llu\n", what, (unsigned long long)got, (unsigned long long)want);
}

static struct iface_address v4(uint8_t a, uint8_t b, uint8_t c, uint8_t d) {
    return (struct iface_address){4, {a, b, c, d}};
}

/* fe80::x, or another address with this first octet pair. */
static struct iface_address v6(uint8_t first, uint8_t second, uint8_t last) {
    return (struct iface_address){6, {[0] = first, [1] = second, [15] = last}};
}

static uint64_t word(uint64_t *state) { /* xorshift */
    *state ^= *state << 13;
    *state ^= *state >> 7;
    *state ^= *state << 17;
    return *state;
}

static uint8_t big[70000], out[IFACE_FRAME_ROOM];

static const struct iface_rooms large = IFACE_ROOMS(64, 65536), small = IFACE_ROOMS(2, 256);

static struct iface_config good;

static void fill_in_good(void) {
    iface_config_init(&good);
    wants("usual frames", good.frame_len == 1514 && good.medium == IFACE_ETHERNET && good.sockets == 8 && good.slaac == 0, 1);
    wants("no bound of bursts", good.burst, 0);
    wants("usual neighbours", good.neighbors, 128);
    wants("usual addresses, routes and groups", good.addresses == 8 && good.routes == 8 && good.groups == 16, 1);
    wants("what is usually kept of routers", good.prefixes == 4 && good.routers == 4, 1);
    wants("usual packets in fragments", good.fragmented, 16);
    wants("usual patience", good.patience, 3000000);
    wants("usual timeout", good.reassembly_timeout, 10000000);
    wants("usual start", (uint64_t)good.start, 0);
    good.addresses = 4, good.routes = 0, good.groups = 8;
    good.seed = 1, good.hardware_address[0] = 2, good.hardware_address[5] = 1;
}

static void refuses_configurations(void) {
    iface host = IFACE_NONE;
    struct iface_config c = good;
    c.frame_len = 589, wants("frames of 589", iface_new(&host, &c), IFACE_BAD_MTU);
    c.frame_len = 1515, wants("frames of 1515", iface_new(&host, &c), IFACE_BAD_MTU);
    c.frame_len = 0xffffffff, wants("frames of 2^32-1", iface_new(&host, &c), IFACE_BAD_MTU);
    c = good, c.medium = 2, wants("medium 2", iface_new(&host, &c), IFACE_BAD_ARGUMENT);
    c = good, c.hardware_address[0] = 1, wants("hardware address of a group", iface_new(&host, &c), IFACE_NOT_UNICAST);
    c = good, c.reassembly_timeout = 0, wants("no time for fragments", iface_new(&host, &c), IFACE_BAD_TIMEOUT);
    c.reassembly_timeout = 86400000001, wants("more than a day", iface_new(&host, &c), IFACE_BAD_TIMEOUT);
    c.reassembly_timeout = UINT64_MAX, wants("more than a day", iface_new(&host, &c), IFACE_BAD_TIMEOUT);
    c = good, c.checksums.icmpv6 = 4, wants("checksum 4", iface_new(&host, &c), IFACE_BAD_ARGUMENT);
    c = good, c.checksums.ipv4 = 255, wants("checksum 255", iface_new(&host, &c), IFACE_BAD_ARGUMENT);
    c = good, c.start = -1, wants("start at -1", iface_new(&host, &c), IFACE_BAD_MOMENT);
    c.start = IFACE_LAST_MOMENT + 1, wants("start at 2^62+1", iface_new(&host, &c), IFACE_BAD_MOMENT);
    wants("an older header", iface_new_for(&host, &good, IFACE_VERSION - 1), IFACE_BAD_VERSION);
    wants("a newer header", iface_new_for(&host, &good, IFACE_VERSION + 1), IFACE_BAD_VERSION);
    wants("handle", host.tag, 0);
    wants("free of none", iface_free(&host), IFACE_NO_HOST);
    c = good, c.medium = IFACE_IP, c.frame_len = 576, wants("packets of 576", iface_new(&host, &c), IFACE_OK);
    iface copy = host;
    wants("new over a host", iface_new(&host, &good), IFACE_HAS_HOST);
    wants("the version first", iface_new_for(&host, &good, 0), IFACE_BAD_VERSION);
    wants("handle kept", memcmp(&copy, &host, sizeof host) == 0, 1);
    wants("free", iface_free(&host), IFACE_OK);
    wants("free again", iface_free(&host), IFACE_NO_HOST);
}

static void refuses_without_host(void) {
    iface host = IFACE_NONE;
    struct iface_address a = v4(10, 0, 0, 1);
    struct iface_endpoint e = {a, 9};
    uint32_t socket = 77;
    uint8_t prefix;
    size_t n = 77;
    int64_t at = 77;
    uint64_t count = 77;
    uint8_t flag = 77, hardware[6] = {2, 0, 0, 0, 0, 9};
    struct iface_address b = v4(10, 0, 0, 9);
    struct iface_cidr own = {a, 8};
    struct iface_counts counters = {.no_memory = 77};
    struct iface_drops drops = {.reset = 77};
    struct iface_queue received = {.first = 77}, to_send = {.first = 78};
    struct iface_segment segment = {.remote = e, .seq = 77};
    wants("address", iface_add_address(&host, &a, 8), IFACE_NO_HOST);
    wants("bad argument first", iface_add_address(&host, &a, 33), IFACE_BAD_ARGUMENT);
    wants("all addresses", iface_set_addresses(&host, &own, 1), IFACE_NO_HOST);
    wants("route", iface_add_route_until(&host, &a, 8, &a, 9), IFACE_NO_HOST);
    wants("route at", iface_route_at(&host, 0, &b, &flag, &b, &at), IFACE_NO_HOST);
    wants("source", iface_source_for(&host, &a, &b), IFACE_NO_HOST);
    wants("set hop limit", iface_set_hop_limit(&host, 0, 9), IFACE_NO_HOST);
    wants("hop limit", iface_hop_limit(&host, 0, &flag), IFACE_NO_HOST);
    wants("changed", iface_sockets_changed(&host, &flag), IFACE_NO_HOST);
    wants("counters", iface_counters(&host, &counters), IFACE_NO_HOST);
    wants("drops", iface_guard_drops(&host, &drops), IFACE_NO_HOST);
    wants("conflict", iface_guard_conflict(&host, hardware, &at), IFACE_NO_HOST);
    wants("pinned conflict", iface_guard_pinned_conflict(&host, hardware, &at), IFACE_NO_HOST);
    wants("pin", iface_guard_pin(&host, &a, hardware), IFACE_NO_HOST);
    wants("unpin", iface_guard_unpin(&host, &a), IFACE_NO_HOST);
    wants("neighbour", iface_neighbor_at(&host, 0, &b, hardware, &at), IFACE_NO_HOST);
    wants("queues", iface_queues(&host, 0, &received, &to_send), IFACE_NO_HOST);
    wants("nothing written", counters.no_memory == 77 && drops.reset == 77 && b.octets[3] == 9 && received.first == 77 && to_send.first == 78, 1);
    wants("address at", iface_address_at(&host, 0, &a, &prefix), IFACE_NO_HOST);
    wants("route", iface_set_default_route(&host, &a), IFACE_NO_HOST);
    wants("udp", iface_udp_open(&host, &e, &small, &socket), IFACE_NO_HOST);
    wants("send", iface_udp_send(&host, 0, &e, big, 1), IFACE_NO_HOST);
    wants("receive", iface_udp_receive(&host, 0, &e, big, 1, &n), IFACE_NO_HOST);
    wants("peek", iface_udp_peek(&host, 0, &e, big, 1, &n), IFACE_NO_HOST);
    wants("peek", iface_icmp_peek(&host, 0, &b, big, 1, &n), IFACE_NO_HOST);
    wants("peek", iface_raw_peek(&host, 0, big, 1, &n), IFACE_NO_HOST);
    wants("segments", iface_tcp_open(&host, &e, &e, &small, &socket), IFACE_NO_HOST);
    wants("send", iface_tcp_send(&host, 0, &segment, big, 1), IFACE_NO_HOST);
    wants("receive", iface_tcp_receive(&host, 0, &segment, big, 1, &n), IFACE_NO_HOST);
    wants("peek", iface_tcp_peek(&host, 0, &segment, big, 1, &n), IFACE_NO_HOST);
    wants("hold", iface_tcp_hold(&host, 0, 1), IFACE_NO_HOST);
    wants("abort", iface_tcp_abort(&host, 0), IFACE_NO_HOST);
    wants("frame", iface_receive(&host, 0, big, 60, out, sizeof out, &n), IFACE_NO_HOST);
    wants("next", iface_next(&host, 0, out, sizeof out, &n), IFACE_NO_HOST);
    wants("poll_at", iface_poll_at(&host, 0, &at), IFACE_NO_HOST);
    wants("waiting", iface_waiting(&host, 0, &a, &at), IFACE_NO_HOST);
    wants("given up", iface_given_up(&host, 0, &a), IFACE_NO_HOST);
    wants("given up, of all", iface_given_up_count(&host, &count), IFACE_NO_HOST);
    wants("in a group", iface_has_group(&host, &a, &flag), IFACE_NO_HOST);
    wants("set hardware address", iface_set_hardware_address(&host, hardware), IFACE_NO_HOST);
    wants("hardware address", iface_hardware_address(&host, hardware), IFACE_NO_HOST);
    wants("set timeout", iface_set_reassembly_timeout(&host, 1), IFACE_NO_HOST);
    wants("timeout", iface_reassembly_timeout(&host, &count), IFACE_NO_HOST);
    wants("set any address", iface_set_any_ip(&host, 1), IFACE_NO_HOST);
    wants("any address", iface_any_ip(&host, &flag), IFACE_NO_HOST);
    wants("routers", iface_slaac_updated_at(&host, &at), IFACE_NO_HOST);
    wants("what was not written", socket == 77 && n == 77 && at == 77 && count == 77, 1);
    wants("nor that", flag == 77 && hardware[5] == 9 && segment.seq == 77 && e.port == 9, 1);
}

static void refuses_addresses(iface *host) {
    struct iface_address a = v4(192, 168, 69, 1), read;
    uint8_t prefix = 99;
    wants("prefix of 33", iface_add_address(host, &a, 33), IFACE_BAD_ARGUMENT);
    a.version = 5, wants("version 5", iface_add_address(host, &a, 24), IFACE_BAD_ARGUMENT);
    a = v6(0xfe, 0x80, 1), wants("prefix of 129", iface_add_address(host, &a, 129), IFACE_BAD_ARGUMENT);
    a = v4(255, 255, 255, 255), wants("broadcast as own", iface_add_address(host, &a, 24), IFACE_NOT_UNICAST);
    a = v4(224, 0, 0, 1), wants("group as own", iface_add_address(host, &a, 24), IFACE_NOT_UNICAST);
    a = v6(0xff, 2, 1), wants("group of IPv6 as own", iface_add_address(host, &a, 64), IFACE_NOT_UNICAST);
    wants("no address", iface_address_at(host, 0, &read, &prefix), IFACE_NOT_THERE);
    wants("nothing written", prefix, 99);
    a = v4(192, 168, 69, 1), wants("address", iface_add_address(host, &a, 24), IFACE_OK);
    a = v6(0xfe, 0x80, 1), wants("address of IPv6", iface_add_address(host, &a, 64), IFACE_OK);
    for (uint8_t i = 2; i < 4; i++) a = v4(10, 0, i, 1), wants("address", iface_add_address(host, &a, 24), IFACE_OK);
    a = v4(10, 0, 9, 1), wants("fifth address", iface_add_address(host, &a, 24), IFACE_TABLE_FULL);
    struct iface_cidr list[17] = {{v4(10, 0, 9, 1), 24}, {v4(10, 0, 9, 2), 24}, {v4(10, 0, 9, 3), 24}, {v4(10, 0, 9, 4), 33}};
    wants("prefix of 33 in a list", iface_set_addresses(host, list, 4), IFACE_BAD_ARGUMENT);
    wants("list of 17", iface_set_addresses(host, list, 17), IFACE_TABLE_FULL);
    list[3].prefix_len = 24, list[4] = list[3];
    wants("list of five", iface_set_addresses(host, list, 5), IFACE_TABLE_FULL);
    list[1].address.version = 0;
    wants("version 0 in a list", iface_set_addresses(host, list, 4), IFACE_BAD_ARGUMENT);
    list[1].address = v4(224, 0, 0, 1), wants("group in a list", iface_set_addresses(host, list, 4), IFACE_NOT_UNICAST);
    wants("address 3, as it was", iface_address_at(host, 3, &read, &prefix), IFACE_OK);
    wants("its octets", memcmp(read.octets, "\12\0\3\1", 4) == 0, 1);
    wants("address 1", iface_address_at(host, 1, &read, &prefix), IFACE_OK);
    a = v6(0xfe, 0x80, 1), wants("its octets", memcmp(&read, &a, sizeof a) == 0, 1);
    wants("its prefix", prefix, 64);
    wants("address 4", iface_address_at(host, 4, &read, &prefix), IFACE_NOT_THERE);
    wants("another prefix", iface_remove_address(host, &a, 65), IFACE_NOT_THERE);
    a = v4(10, 0, 3, 1), wants("remove", iface_remove_address(host, &a, 24), IFACE_OK);
    wants("remove again", iface_remove_address(host, &a, 24), IFACE_NOT_THERE);
    wants("address 3", iface_address_at(host, 3, &read, &prefix), IFACE_NOT_THERE);
}

static void refuses_link_local(void) {
    static const uint8_t group[6] = {3, 0, 0, 0, 0, 1}, all[6] = {255, 255, 255, 255, 255, 255};
    struct iface_address address = {77, {0}};
    wants("group's hardware address", iface_link_local(group, &address), IFACE_NOT_UNICAST);
    wants("broadcast", iface_link_local(all, &address), IFACE_NOT_UNICAST);
    wants("nothing written", address.version, 77);
}

static void refuses_routes_and_groups(iface *host) {
    struct iface_address a = v4(192, 168, 69, 100), network = v4(172, 16, 0, 0);
    wants("default", iface_set_default_route(host, &a), IFACE_OK);
    wants("default again", iface_set_default_route(host, &a), IFACE_OK);
    for (uint8_t i = 0; i < 3; i++) network.octets[1] = i, wants("route", iface_add_route(host, &network, 16, &a), IFACE_OK);
    wants("fifth route", iface_add_route(host, &network, 16, &a), IFACE_TABLE_FULL);
    wants("fifth route", iface_add_route_until(host, &network, 16, &a, 0), IFACE_TABLE_FULL);
    wants("end at -1", iface_add_route_until(host, &network, 16, &a, -1), IFACE_BAD_MOMENT);
    wants("end at 2^62+1", iface_add_route_until(host, &network, 16, &a, IFACE_LAST_MOMENT + 1), IFACE_BAD_MOMENT);
    wants("end just below none", iface_add_route_until(host, &network, 16, &a, IFACE_NEVER - 1), IFACE_BAD_MOMENT);
    wants("prefix of 33", iface_add_route_until(host, &network, 33, &a, 0), IFACE_BAD_ARGUMENT);
    struct iface_address to = {77, {0}}, by = {77, {0}};
    uint8_t prefix = 77, hardware[6] = {77};
    int64_t until = 77;
    wants("route 4", iface_route_at(host, 4, &to, &prefix, &by, &until), IFACE_NOT_THERE);
    wants("neighbour 0", iface_neighbor_at(host, 0, &to, hardware, &until), IFACE_NOT_THERE);
    wants("neighbour 2^32-1", iface_neighbor_at(host, 0xffffffff, &to, hardware, &until), IFACE_NOT_THERE);
    wants("nothing written", to.version == 77 && prefix == 77 && by.version == 77 && until == 77 && hardware[0] == 77, 1);
    to.version = 0, wants("version 0", iface_source_for(host, &to, &by), IFACE_BAD_ARGUMENT);
    wants("nothing written", by.version, 77);
    struct iface_address b = v6(0xfe, 0x80, 9);
    wants("default of the other family", iface_set_default_route(host, &b), IFACE_TABLE_FULL);
    wants("route of another prefix", iface_remove_route(host, &network, 17), IFACE_NOT_THERE);
    wants("remove", iface_remove_route(host, &network, 16), IFACE_OK);
    wants("remove again", iface_remove_route(host, &network, 16), IFACE_NOT_THERE);
    a.version = 0, wants("version 0", iface_set_default_route(host, &a), IFACE_BAD_ARGUMENT);
    a = v4(10, 0, 0, 1), wants("no group", iface_join_group(host, &a), IFACE_BAD_ADDRESS);
    wants("no group left", iface_leave_group(host, &a), IFACE_BAD_ADDRESS);
    for (uint8_t i = 0; i < 7; i++) a = v4(239, 1, 1, i), wants("group", iface_join_group(host, &a), IFACE_OK);
    a = v4(239, 2, 2, 2), wants("ninth group", iface_join_group(host, &a), IFACE_TABLE_FULL);
    a = v4(239, 1, 1, 3), wants("leave", iface_leave_group(host, &a), IFACE_OK);
    wants("leave again", iface_leave_group(host, &a), IFACE_OK);
}

static void refuses_properties(iface *host) {
    static const uint8_t group[6] = {3, 0, 0, 0, 0, 1}, another[6] = {2, 0, 0, 0, 0, 7};
    uint8_t hardware[6] = {0}, flag = 77;
    uint64_t micros = 77;
    int64_t at = 77;
    struct iface_address a = v4(239, 1, 1, 4);
    wants("group as hardware address", iface_set_hardware_address(host, group), IFACE_NOT_UNICAST);
    wants("hardware address", iface_hardware_address(host, hardware), IFACE_OK);
    wants("as it was", memcmp(hardware, good.hardware_address, 6) == 0, 1);
    wants("another one", iface_set_hardware_address(host, another), IFACE_OK);
    wants("hardware address", iface_hardware_address(host, hardware), IFACE_OK);
    wants("as it is", memcmp(hardware, another, 6) == 0, 1);
    wants("the first one", iface_set_hardware_address(host, good.hardware_address), IFACE_OK);
    wants("timeout of 0", iface_set_reassembly_timeout(host, 0), IFACE_BAD_TIMEOUT);
    wants("timeout above a day", iface_set_reassembly_timeout(host, 86400000001), IFACE_BAD_TIMEOUT);
    wants("timeout", iface_reassembly_timeout(host, &micros), IFACE_OK);
    wants("as it was", micros, good.reassembly_timeout);
    wants("timeout of a day", iface_set_reassembly_timeout(host, 86400000000), IFACE_OK);
    wants("timeout", iface_reassembly_timeout(host, &micros), IFACE_OK);
    wants("a day", micros, 86400000000);
    wants("the first one", iface_set_reassembly_timeout(host, good.reassembly_timeout), IFACE_OK);
    wants("any address", iface_any_ip(host, &flag), IFACE_OK);
    wants("not at first", flag, 0);
    wants("set any address", iface_set_any_ip(host, 255), IFACE_OK);
    wants("any address", iface_any_ip(host, &flag), IFACE_OK);
    wants("set", flag, 1);
    wants("not any address", iface_set_any_ip(host, 0), IFACE_OK);
    wants("in a group", iface_has_group(host, &a, &flag), IFACE_OK);
    wants("joined", flag, 1);
    a = v4(239, 1, 1, 3), wants("in a group", iface_has_group(host, &a, &flag), IFACE_OK);
    wants("left", flag, 0);
    a = v6(0xff, 2, 1), wants("in ff02::1", iface_has_group(host, &a, &flag), IFACE_OK);
    wants("always", flag, 1);
    a = v4(10, 0, 0, 1), wants("no group", iface_has_group(host, &a, &flag), IFACE_OK);
    wants("not in it", flag, 0);
    a.version = 0, flag = 77, wants("version 0", iface_has_group(host, &a, &flag), IFACE_BAD_ARGUMENT);
    wants("nothing written", flag, 77);
    wants("routers", iface_slaac_updated_at(host, &at), IFACE_OK);
    wants("not yet", (uint64_t)at, 0);
}

/* A host without hardware addresses. */
static void refuses_hardware_addresses(void) {
    iface host = IFACE_NONE;
    struct iface_config c = good;
    uint8_t hardware[6] = {2, 0, 0, 0, 0, 9};
    c.medium = IFACE_IP, wants("packets", iface_new(&host, &c), IFACE_OK);
    wants("hardware address", iface_hardware_address(&host, hardware), IFACE_NOT_THERE);
    wants("nothing written", hardware[5], 9);
    wants("set hardware address", iface_set_hardware_address(&host, hardware), IFACE_NOT_THERE);
    wants("free", iface_free(&host), IFACE_OK);
}

static void refuses_sockets(iface *host) {
    uint32_t socket = 77, other = 77;
    size_t n = 77;
    struct iface_endpoint to = {v4(192, 168, 69, 100), 9}, any = {{0, {0}}, 6969}, from;
    struct iface_address a = v4(192, 168, 69, 100);
    any.port = 0, wants("port 0", iface_udp_open(host, &any, &large, &socket), IFACE_BAD_PORT);
    any.address.version = 7, wants("version 7", iface_udp_open(host, &any, &large, &socket), IFACE_BAD_ARGUMENT);
    any = (struct iface_endpoint){v4(255, 255, 255, 255), 6969};
    wants("at 255.255.255.255", iface_udp_open(host, &any, &large, &socket), IFACE_BAD_ADDRESS);
    any.address = v4(239, 1, 1, 1), wants("at a group", iface_udp_open(host, &any, &large, &socket), IFACE_BAD_ADDRESS);
    any.address = v6(0xff, 2, 1), wants("at a group", iface_udp_open(host, &any, &large, &socket), IFACE_BAD_ADDRESS);
    any.port = 0, wants("port 0 first", iface_udp_open(host, &any, &large, &socket), IFACE_BAD_PORT);
    wants("version 5", iface_raw_open(host, 5, 89, &small, &socket), IFACE_BAD_ARGUMENT);
    wants("nothing written", socket, 77);
    wants("unopened socket", iface_udp_send(host, 0, &to, big, 1), IFACE_NO_SOCKET);
    wants("too long first", iface_udp_send(host, 0, &to, big, 4069), IFACE_TOO_LONG);
    wants("unopened socket", iface_udp_receive(host, 0xffffffff, &from, big, sizeof big, &n), IFACE_NO_SOCKET);
    wants("unopened socket", iface_close(host, 8), IFACE_NO_SOCKET);
    any = (struct iface_endpoint){{0, {0}}, 6969}, wants("socket", iface_udp_open(host, &any, &large, &socket), IFACE_OK);
    wants("its number", socket, 0);
    wants("raw", iface_raw_open(host, 4, 89, &small, &other), IFACE_OK);
    wants("its number", other, 1);
    wants("another kind", iface_raw_send(host, socket, big, 20), IFACE_NO_SOCKET);
    uint8_t limit = 77;
    wants("hop limit of 0", iface_set_hop_limit(host, socket, 0), IFACE_BAD_ARGUMENT);
    wants("of a raw socket", iface_set_hop_limit(host, other, 1), IFACE_NO_SOCKET);
    wants("of a raw socket", iface_hop_limit(host, other, &limit), IFACE_NO_SOCKET);
    wants("of no socket", iface_set_hop_limit(host, 7, 1), IFACE_NO_SOCKET);
    wants("of no socket", iface_hop_limit(host, 0xffffffff, &limit), IFACE_NO_SOCKET);
    wants("nothing written", limit, 77);
    struct iface_queue received = {.first = 77}, to_send = {.first = 78};
    wants("queues of no socket", iface_queues(host, 7, &received, &to_send), IFACE_NO_SOCKET);
    wants("nothing written", received.first == 77 && to_send.first == 78, 1);
    wants("hop limit", iface_hop_limit(host, socket, &limit), IFACE_OK);
    wants("at first", limit, 64);
    wants("another kind", iface_icmp_send(host, other, &a, big, 20), IFACE_NO_SOCKET);
    wants("empty", iface_udp_receive(host, socket, &from, big, sizeof big, &n), IFACE_EMPTY);
    wants("empty", iface_udp_peek(host, socket, &from, big, sizeof big, &n), IFACE_EMPTY);
    wants("empty", iface_raw_peek(host, other, big, sizeof big, &n), IFACE_EMPTY);
    wants("another kind", iface_raw_peek(host, socket, big, sizeof big, &n), IFACE_NO_SOCKET);
    wants("another kind", iface_icmp_peek(host, socket, &a, big, sizeof big, &n), IFACE_NO_SOCKET);
    wants("another kind", iface_tcp_abort(host, socket), IFACE_NO_SOCKET);
    wants("another kind", iface_tcp_hold(host, other, 0), IFACE_NO_SOCKET);
    wants("nothing written", n, 77);
    to.port = 0, wants("to port 0", iface_udp_send(host, socket, &to, big, 1), IFACE_BAD_PORT);
    to = (struct iface_endpoint){v4(0, 0, 0, 0), 9}, wants("to 0.0.0.0", iface_udp_send(host, socket, &to, big, 1), IFACE_BAD_ADDRESS);
    to = (struct iface_endpoint){v6(0, 0, 0), 9}, wants("to ::", iface_udp_send(host, socket, &to, big, 1), IFACE_BAD_ADDRESS);
    to.address.version = 0, wants("to version 0", iface_udp_send(host, socket, &to, big, 1), IFACE_BAD_ARGUMENT);
    to = (struct iface_endpoint){v4(192, 168, 69, 100), 9};
    wants("4069 octets", iface_udp_send(host, socket, &to, big, 4069), IFACE_TOO_LONG);
    wants("65536 octets", iface_udp_send(host, socket, &to, big, 65536), IFACE_TOO_LONG);
    struct iface_endpoint to6 = {v6(0xfe, 0x80, 100), 9};
    wants("1453 octets", iface_udp_send(host, socket, &to6, big, 1453), IFACE_TOO_LONG);
    wants("1452 octets", iface_udp_send(host, socket, &to6, big, 1452), IFACE_OK);
    wants("4068 octets", iface_udp_send(host, socket, &to, big, 4068), IFACE_OK);
    wants("no octets", iface_udp_send(host, socket, &to, big, 0), IFACE_OK);
    for (int i = 0; i < 61; i++) wants("queue", iface_udp_send(host, socket, &to, big, 10), IFACE_OK);
    wants("full queue", iface_udp_send(host, socket, &to, big, 10), IFACE_QUEUE_FULL);
    wants("queues", iface_queues(host, socket, &received, &to_send), IFACE_OK);
    wants("packets", received.packets == 0 && to_send.packets == 64, 1);
    wants("octets", received.octets == 0 && to_send.octets == 1452 + 4068 + 610, 1);
    wants("at most", received.most_packets == 64 && to_send.most_packets == 64, 1);
    wants("at most", received.most_octets == 65536 && to_send.most_octets == 65536, 1);
    wants("the first", received.first == 0 && to_send.first == 1452, 1);
    for (uint32_t i = 2; i < 8; i++) wants("icmp", iface_icmp_open_ident(host, (uint16_t)i, &small, &other), IFACE_OK);
    wants("ninth socket", iface_icmp_open_port(host, 6969, &small, &other), IFACE_TABLE_FULL);
    any.port = 0, wants("port 0 first", iface_udp_open(host, &any, &large, &other), IFACE_BAD_PORT);
    any = (struct iface_endpoint){v4(239, 1, 1, 1), 6969};
    wants("its address first", iface_udp_open(host, &any, &large, &other), IFACE_BAD_ADDRESS);
    wants("close", iface_close(host, 5), IFACE_OK);
    wants("close again", iface_close(host, 5), IFACE_NO_SOCKET);
    wants("open", iface_icmp_open_port(host, 6969, &small, &other), IFACE_OK);
    wants("the least number", other, 5);
    int64_t since = 77;
    uint64_t count = 77;
    wants("waits for nobody", iface_waiting(host, 0, &a, &since), IFACE_EMPTY);
    wants("unopened socket", iface_waiting(host, 8, &a, &since), IFACE_NO_SOCKET);
    wants("nothing given up", iface_given_up(host, 0, &a), IFACE_EMPTY);
    wants("unopened socket", iface_given_up(host, 0xffffffff, &a), IFACE_NO_SOCKET);
    wants("nothing written", (uint64_t)since, 77);
    wants("given up, of all", iface_given_up_count(host, &count), IFACE_OK);
    wants("their number", count, 0);
}

static void refuses_segments(void) {
    iface host = IFACE_NONE;
    uint32_t socket = 77, other = 77;
    size_t n = 77;
    struct iface_endpoint local = {IFACE_ANY, 80}, any = {IFACE_ANY, 0}, peer = {v4(192, 168, 69, 2), 9};
    struct iface_segment segment = {.remote = peer, .control = IFACE_TCP_SYN}, got = {.seq = 77};
    wants("host", iface_new(&host, &good), IFACE_OK);
    local.port = 0, wants("port 0", iface_tcp_open(&host, &local, &any, &small, &socket), IFACE_BAD_PORT);
    local.port = 80, peer.port = 0, wants("from port 0", iface_tcp_open(&host, &local, &peer, &small, &socket), IFACE_BAD_PORT);
    peer = (struct iface_endpoint){v4(0, 0, 0, 0), 9};
    wants("from 0.0.0.0", iface_tcp_open(&host, &local, &peer, &small, &socket), IFACE_BAD_ADDRESS);
    peer.address = v6(0, 0, 0), wants("from ::", iface_tcp_open(&host, &local, &peer, &small, &socket), IFACE_BAD_ADDRESS);
    peer.address.version = 5, wants("version 5", iface_tcp_open(&host, &local, &peer, &small, &socket), IFACE_BAD_ARGUMENT);
    peer.address = v4(192, 168, 69, 2), local.address = v4(239, 1, 1, 1);
    wants("at a group", iface_tcp_open(&host, &local, &peer, &small, &socket), IFACE_BAD_ADDRESS);
    local.address.version = 7, wants("version 7", iface_tcp_open(&host, &local, &peer, &small, &socket), IFACE_BAD_ARGUMENT);
    wants("nothing written", socket, 77);
    local.address.version = 0, wants("segments", iface_tcp_open(&host, &local, &peer, &small, &socket), IFACE_OK);
    wants("its number", socket, 0);
    wants("another kind", iface_udp_open(&host, &local, &small, &other), IFACE_OK);
    wants("no segments", iface_tcp_send(&host, other, &segment, big, 0), IFACE_NO_SOCKET);
    wants("no segments", iface_tcp_receive(&host, other, &got, big, sizeof big, &n), IFACE_NO_SOCKET);
    wants("no segments", iface_tcp_peek(&host, other, &got, big, sizeof big, &n), IFACE_NO_SOCKET);
    wants("no route", iface_udp_send(&host, other, &peer, big, 0), IFACE_NO_ROUTE);
    peer.address = v4(239, 1, 1, 1), wants("no datagrams", iface_udp_send(&host, socket, &peer, big, 0), IFACE_NO_SOCKET);
    wants("to a group", iface_udp_send(&host, other, &peer, big, 0), IFACE_OK);
    peer.address = v4(255, 255, 255, 255), wants("to everybody", iface_udp_send(&host, other, &peer, big, 0), IFACE_OK);
    peer.address = v4(192, 168, 69, 2);
    wants("unopened socket", iface_tcp_abort(&host, 7), IFACE_NO_SOCKET);
    wants("unopened socket", iface_tcp_hold(&host, 0xffffffff, 0), IFACE_NO_SOCKET);
    wants("hold until -1", iface_tcp_hold(&host, socket, -1), IFACE_BAD_MOMENT);
    wants("hold until 2^62+1", iface_tcp_hold(&host, 7, IFACE_LAST_MOMENT + 1), IFACE_BAD_MOMENT);
    segment.control = 5, wants("control 5", iface_tcp_send(&host, socket, &segment, big, 0), IFACE_BAD_ARGUMENT);
    segment.control = 255, wants("control 255", iface_tcp_send(&host, socket, &segment, big, 0), IFACE_BAD_ARGUMENT);
    segment.control = 0, segment.remote.address.version = 0;
    wants("to version 0", iface_tcp_send(&host, socket, &segment, big, 0), IFACE_BAD_ARGUMENT);
    segment.remote.address = v4(0, 0, 0, 0), wants("to 0.0.0.0", iface_tcp_send(&host, socket, &segment, big, 0), IFACE_BAD_ADDRESS);
    segment.remote.port = 0, wants("to port 0", iface_tcp_send(&host, socket, &segment, big, 0), IFACE_BAD_PORT);
    segment.remote = peer, wants("4057 octets", iface_tcp_send(&host, socket, &segment, big, 4057), IFACE_TOO_LONG);
    wants("257 octets", iface_tcp_send(&host, socket, &segment, big, 257), IFACE_QUEUE_FULL);
    wants("next", iface_next(&host, 0, out, sizeof out, &n), IFACE_OK);
    n = 77, wants("still", iface_tcp_send(&host, socket, &segment, big, 257), IFACE_QUEUE_FULL);
    segment.remote.address = v6(0xfe, 0x80, 2);
    wants("1441 octets", iface_tcp_send(&host, socket, &segment, big, 1441), IFACE_TOO_LONG);
    wants("1440 octets", iface_tcp_send(&host, socket, &segment, big, 1440), IFACE_QUEUE_FULL);
    wants("empty", iface_tcp_receive(&host, socket, &got, big, sizeof big, &n), IFACE_EMPTY);
    wants("empty", iface_tcp_peek(&host, socket, &got, big, sizeof big, &n), IFACE_EMPTY);
    wants("nothing written", n == 77 && got.seq == 77, 1);
    wants("256 octets", iface_tcp_send(&host, socket, &segment, big, 256), IFACE_OK);
    wants("no octets", iface_tcp_send(&host, socket, &segment, big, 0), IFACE_OK);
    wants("full queue", iface_tcp_send(&host, socket, &segment, big, 0), IFACE_QUEUE_FULL);
    wants("free", iface_free(&host), IFACE_OK);
}

static void refuses_frames(iface *host) {
    size_t n = 77;
    int64_t at = 77;
    wants("moment -1", iface_next(host, -1, out, sizeof out, &n), IFACE_BAD_MOMENT);
    wants("moment 2^62+1", iface_next(host, IFACE_LAST_MOMENT + 1, out, sizeof out, &n), IFACE_BAD_MOMENT);
    wants("moment -1", iface_receive(host, INT64_MIN, big, 60, out, sizeof out, &n), IFACE_BAD_MOMENT);
    wants("its moment first", iface_next(host, -1, out, 1513, &n), IFACE_BAD_MOMENT);
    wants("moment -1", iface_poll_at(host, -1, &at), IFACE_BAD_MOMENT);
    wants("1513 octets of room", iface_next(host, 0, out, 1513, &n), IFACE_NO_ROOM);
    wants("no room", iface_receive(host, 0, big, 60, out, 0, &n), IFACE_NO_ROOM);
    wants("nothing written", n == 77 && at == 77, 1);
    wants("due at once", iface_poll_at(host, 0, &at), IFACE_OK);
    wants("its instant", (uint64_t)at, 0);
    wants("empty frame", iface_receive(host, 0, big, 0, out, sizeof out, &n), IFACE_OK);
    wants("no answer", n, 0);
    wants("frame of 70000", iface_receive(host, 0, big, 70000, out, sizeof out, &n), IFACE_OK);
}

/* What the library says of itself, and of each code. */
static void tells_of_itself(void) {
    const char *unknown = iface_strerror(IFACE_NO_ROUTE + 1);
    wants("version", iface_version(), IFACE_VERSION);
    wants("name", strncmp(iface_build(), "fumitorygate 0.14.0 (", 21) == 0, 1);
    wants("a number that is no code", strcmp(unknown, "unknown code") == 0, 1);
    wants("the greatest number", strcmp(iface_strerror(UINT32_MAX), unknown) == 0, 1);
    for (uint32_t a = 0; a <= IFACE_NO_SERVER; a++) {
        wants("a code", strcmp(iface_strerror(a), unknown) != 0, 1);
        for (uint32_t b = 0; b < a; b++) wants("two codes", strcmp(iface_strerror(a), iface_strerror(b)) != 0, 1);
    }
}

/* Noise, and noise behind good headers: no fault, and no frame longer than the room. */
static void takes_noise(iface *host, int frames) {
    static const uint8_t head[] = {2, 0, 0, 0, 0, 1, 2, 0, 0, 0, 0, 2, 8, 0, 0x45};
    static const uint8_t protocols[] = {17, 1, 6, 89, 2};
    uint64_t seed = 42;
    int wrong = 0;
    for (int i = 0; i < frames; i++) {
        size_t length = word(&seed) % 1515, n;
        for (size_t k = 0; k < length; k += 8) {
            uint64_t w = word(&seed);
            memcpy(big + k, &w, 8);
        }
        if (i % 2) memcpy(big, head, sizeof head), big[13] = i % 8 == 1 ? 6 : 0;
        if (i % 8 == 5) memcpy(big + 12, "\x86\xdd\x60\0\0\0", 6), big[18] = (uint8_t)(length >> 8), big[20] = protocols[i / 8 % 5];
        if (i % 4 == 3) { /* a header of IPv4 whose checksum is right */
            uint8_t *p = big + 14;
            uint32_t sum = 0;
            if (length < 34) length = 34;
            size_t total = length - 14;
            p[1] = 0, p[2] = (uint8_t)(total >> 8), p[3] = (uint8_t)total, p[6] = (uint8_t)(i % 3 ? 0x40 : 0x20), p[7] = 0, p[8] = 64;
            p[9] = protocols[i / 4 % 5], p[10] = p[11] = 0;
            memcpy(p + 12, "\xc0\xa8\x45\x64\xc0\xa8\x45\x01", 8);
            for (int k = 0; k < 20; k += 2) sum += (uint32_t)(p[k] << 8 | p[k + 1]);
            sum = (sum & 0xffff) + (sum >> 16), sum = ~((sum & 0xffff) + (sum >> 16));
            p[10] = (uint8_t)(sum >> 8), p[11] = (uint8_t)sum;
        }
        wrong += iface_receive(host, i, big, length, out, sizeof out, &n) != IFACE_OK || n > sizeof out;
        if (i % 16 == 0) wrong += iface_next(host, i, out, sizeof out, &n) != IFACE_OK || n > sizeof out;
        if (i % 64 == 0) {
            struct iface_endpoint from;
            iface_udp_receive(host, 0, &from, big, sizeof big, &n);
        }
    }
    wants("frames of noise that went wrong", (uint64_t)wrong, 0);
}

int main(int argc, char **argv) {
    int frames = argc > 1 && strcmp(argv[1], "--short") == 0 ? 20000 : 300000;
    iface host = IFACE_NONE;
    tells_of_itself();
    fill_in_good();
    refuses_configurations();
    refuses_without_host();
    wants("host", iface_new(&host, &good), IFACE_OK);
    refuses_addresses(&host);
    refuses_link_local();
    refuses_routes_and_groups(&host);
    refuses_properties(&host);
    refuses_hardware_addresses();
    refuses_sockets(&host);
    refuses_segments();
    refuses_frames(&host);
    takes_noise(&host, frames);
    wants("free", iface_free(&host), IFACE_OK);
    printf("misuse: %d checks and %d frames of noise: %d wrong\n", checks, frames, failures);
    return failures != 0;
}
