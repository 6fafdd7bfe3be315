/* How much of the stack each call takes: a stack of its own is painted, the call is made on it, and what lost its
 * paint is counted. The heap is an array, so malloc's own use isn't counted; that of memcpy is.
 *
 *   stack      prints a line for each call: the most octets that it took, of all times it was made
 *
 * The calls are made on a host of both families that gets each kind of frame, whole and damaged, and sends by each
 * kind of socket.
 */
#define _XOPEN_SOURCE 600
#include "iface.h"
#include "lease_reply.h"
#include "name_answer.h"

#include <stdbool.h>
#include <stdio.h>
#include <stdlib.h>
#include <string.h>
#include <ucontext.h>

/* ---- the heap: free blocks of 16, 32, 64 .. octets are kept in a list for each size ---- */

enum { HEAP_OCTETS = 1 << 21, SIZES = 17 };

union head {
    union head *next; /* of a free block */
    int size;         /* of one in use: which of the sizes */
    uint8_t octets[16];
};

static union head heap[HEAP_OCTETS / sizeof(union head)], *free_blocks[SIZES], none;
static size_t heap_used;

struct block {
    bool is_there;
    void *at;
};

struct block rattle_alloc(size_t size, size_t align) {
    int which = 0;
    (void)align;
    while (which < SIZES && ((size_t)16 << which) < size) which++;
    size_t units = 1 + ((size_t)1 << which);
    union head *block = which < SIZES ? free_blocks[which] : NULL;
    if (block) free_blocks[which] = block->next;
    else if (which < SIZES && heap_used + units <= sizeof heap / sizeof *heap)
        block = &heap[heap_used], heap_used += units;
    if (!block) return (struct block){false, &none};
    block->size = which;
    return (struct block){true, block + 1};
}

void rattle_dealloc(void *at) {
    union head *block = (union head *)at - 1;
    int which = block->size;
    block->next = free_blocks[which], free_blocks[which] = block;
}

struct block rattle_realloc(void *old, size_t old_size, size_t size, size_t align) {
    struct block made = rattle_alloc(size, align);
    if (!made.is_there) return made;
    memcpy(made.at, old, old_size < size ? old_size : size);
    rattle_dealloc(old);
    return made;
}

/* ---- the painted stack ---- */

enum { STACK_WORDS = 20 * 1024 };

static const uint64_t paint = 0xa5a5a5a5a5a5a5a5;
static uint64_t stack[STACK_WORDS] __attribute__((aligned(16)));
static ucontext_t here, there;
static void (*call)(void);

static void on_it(void) {
    call();
}

/* How many octets at the top of the stack a call used. */
static size_t used_by(void (*what)(void)) {
    static size_t painted; /* so many words are, from the bottom on */
    size_t untouched = 0;
    while (painted < STACK_WORDS) stack[painted++] = paint;
    getcontext(&there);
    there.uc_stack.ss_sp = stack, there.uc_stack.ss_size = sizeof stack, there.uc_link = &here;
    call = what;
    makecontext(&there, on_it, 0);
    swapcontext(&here, &there);
    while (untouched < STACK_WORDS && stack[untouched] == paint) untouched++;
    painted = untouched;
    return sizeof stack - 8 * untouched;
}

/* ---- the calls, with their arguments ---- */

static iface host = IFACE_NONE;
static struct iface_config config;
static struct iface_address address, other;
static struct iface_endpoint end;
static uint8_t frame[IFACE_FRAME_ROOM], out[65536], payload[4096], prefix_len, protocol, flag, hardware[6];
static uint16_t ident;
static uint32_t code, number, socket_number;
static const struct iface_rooms rooms = IFACE_ROOMS(8, 32768);
static const struct iface_endpoint any = {IFACE_ANY, 0};
static struct iface_segment segment;
static uint64_t count;
static struct iface_counts counters;
static struct iface_drops drops;
static struct iface_cidr list[4];
static struct iface_queue received, to_send;
static int64_t now = 1000000, at;
static size_t length, given, list_length;
static iface_dhcp client = IFACE_DHCP_NONE;
static struct iface_lease lease;
static iface_dns dns = IFACE_DNS_NONE;
static uint64_t dns_key[2];
static struct iface_address servers[IFACE_DNS_SERVERS];
static struct iface_dns_answer found;
static char name[256];
static size_t query;
static iface_streams tcp = IFACE_STREAMS_NONE;
static struct iface_streams_config streams_config;
static struct iface_stream stream;
static struct iface_endpoint local;
static size_t listener, writable;

#define CALLS(each) \
    each(config_init, (iface_config_init(&config), IFACE_OK)) \
    each(new_for, iface_new(&host, &config)) \
    each(free, iface_free(&host)) \
    each(add_address, iface_add_address(&host, &address, prefix_len)) \
    each(remove_address, iface_remove_address(&host, &address, prefix_len)) \
    each(set_addresses, iface_set_addresses(&host, list, list_length)) \
    each(address_at, iface_address_at(&host, number, &other, &prefix_len)) \
    each(link_local, iface_link_local(hardware, &other)) \
    each(join_group, iface_join_group(&host, &address)) \
    each(leave_group, iface_leave_group(&host, &address)) \
    each(has_group, iface_has_group(&host, &address, &flag)) \
    each(set_hardware_address, iface_set_hardware_address(&host, hardware)) \
    each(hardware_address, iface_hardware_address(&host, hardware)) \
    each(set_reassembly_timeout, iface_set_reassembly_timeout(&host, count)) \
    each(reassembly_timeout, iface_reassembly_timeout(&host, &count)) \
    each(set_any_ip, iface_set_any_ip(&host, flag)) \
    each(any_ip, iface_any_ip(&host, &flag)) \
    each(slaac_updated_at, iface_slaac_updated_at(&host, &at)) \
    each(set_default_route, iface_set_default_route(&host, &address)) \
    each(add_route, iface_add_route(&host, &address, prefix_len, &other)) \
    each(add_route_until, iface_add_route_until(&host, &address, prefix_len, &other, now + at)) \
    each(remove_route, iface_remove_route(&host, &address, prefix_len)) \
    each(route_at, iface_route_at(&host, number, &address, &prefix_len, &other, &at)) \
    each(source_for, iface_source_for(&host, &address, &other)) \
    each(neighbor_at, iface_neighbor_at(&host, number, &other, hardware, &at)) \
    each(udp_open, iface_udp_open(&host, &end, &rooms, &socket_number)) \
    each(raw_open, iface_raw_open(&host, 4, protocol, &rooms, &socket_number)) \
    each(icmp_open_ident, iface_icmp_open_ident(&host, ident, &rooms, &socket_number)) \
    each(icmp_open_port, iface_icmp_open_port(&host, end.port, &rooms, &socket_number)) \
    each(tcp_open, iface_tcp_open(&host, &end, &any, &rooms, &socket_number)) \
    each(close, iface_close(&host, socket_number)) \
    each(set_hop_limit, iface_set_hop_limit(&host, socket_number, flag)) \
    each(hop_limit, iface_hop_limit(&host, socket_number, &flag)) \
    each(queues, iface_queues(&host, socket_number, &received, &to_send)) \
    each(udp_send, iface_udp_send(&host, socket_number, &end, payload, given)) \
    each(icmp_send, iface_icmp_send(&host, socket_number, &address, payload, given)) \
    each(raw_send, iface_raw_send(&host, socket_number, payload, given)) \
    each(tcp_send, iface_tcp_send(&host, socket_number, &segment, payload, given)) \
    each(tcp_hold, iface_tcp_hold(&host, socket_number, now)) \
    each(tcp_abort, iface_tcp_abort(&host, socket_number)) \
    each(udp_receive, iface_udp_receive(&host, socket_number, &end, out, sizeof out, &length)) \
    each(icmp_receive, iface_icmp_receive(&host, socket_number, &address, out, sizeof out, &length)) \
    each(raw_receive, iface_raw_receive(&host, socket_number, out, sizeof out, &length)) \
    each(tcp_receive, iface_tcp_receive(&host, socket_number, &segment, out, sizeof out, &length)) \
    each(udp_peek, iface_udp_peek(&host, socket_number, &end, out, sizeof out, &length)) \
    each(icmp_peek, iface_icmp_peek(&host, socket_number, &address, out, sizeof out, &length)) \
    each(raw_peek, iface_raw_peek(&host, socket_number, out, sizeof out, &length)) \
    each(tcp_peek, iface_tcp_peek(&host, socket_number, &segment, out, sizeof out, &length)) \
    each(waiting, iface_waiting(&host, socket_number, &address, &at)) \
    each(given_up, iface_given_up(&host, socket_number, &address)) \
    each(given_up_count, iface_given_up_count(&host, &count)) \
    each(receive, iface_receive(&host, now, frame, given, out, sizeof out, &length)) \
    each(next, iface_next(&host, now, out, sizeof out, &length)) \
    each(sockets_changed, iface_sockets_changed(&host, &flag)) \
    each(counters, iface_counters(&host, &counters)) \
    each(guard_drops, iface_guard_drops(&host, &drops)) \
    each(guard_conflict, iface_guard_conflict(&host, hardware, &at)) \
    each(guard_pinned_conflict, iface_guard_pinned_conflict(&host, hardware, &at)) \
    each(guard_pin, iface_guard_pin(&host, &address, hardware)) \
    each(guard_unpin, iface_guard_unpin(&host, &address)) \
    each(poll_at, iface_poll_at(&host, now, &at)) \
    each(dhcp_new, iface_dhcp_new(&client, &host, 1, &address)) \
    each(dhcp_parameters, iface_dhcp_parameters(&client, payload, 3)) \
    each(dhcp_host_name, iface_dhcp_host_name(&client, name, given)) \
    each(dhcp_poll, iface_dhcp_poll(&client, &host, now, &number)) \
    each(dhcp_poll_at, iface_dhcp_poll_at(&client, &at)) \
    each(dhcp_lost, iface_dhcp_lost(&client, &number)) \
    each(dhcp_lease, iface_dhcp_lease(&client, &lease)) \
    each(dhcp_option, iface_dhcp_option(&client, 6, payload, sizeof payload, &length)) \
    each(dhcp_apply, iface_dhcp_apply(&client, &host)) \
    each(dhcp_set_probing, iface_dhcp_set_probing(&client, 0)) \
    each(dhcp_declined, iface_dhcp_declined(&client, &flag)) \
    each(dhcp_release, iface_dhcp_release(&client, &host)) \
    each(dhcp_reset, iface_dhcp_reset(&client)) \
    each(dhcp_free, iface_dhcp_free(&client, &host)) \
    each(dns_new, iface_dns_new(&dns, number, dns_key, servers)) \
    each(dns_servers, iface_dns_servers(&dns, servers)) \
    each(dns_start, iface_dns_start(&dns, &host, now, name, given, number, &query)) \
    each(dns_poll, iface_dns_poll(&dns, &host, now)) \
    each(dns_poll_at, iface_dns_poll_at(&dns, &at)) \
    each(dns_result, iface_dns_result(&dns, query, &found)) \
    each(dns_cancel, iface_dns_cancel(&dns, &host, query)) \
    each(dns_free, iface_dns_free(&dns, &host)) \
    each(streams_config_init, (iface_streams_config_init(&streams_config), IFACE_OK)) \
    each(streams_new, iface_streams_new(&tcp, &host, &streams_config)) \
    each(streams_poll, iface_streams_poll(&tcp, &host, now)) \
    each(streams_poll_at, iface_streams_poll_at(&tcp, &at)) \
    each(streams_free, iface_streams_free(&tcp, &host)) \
    each(stream_listen, iface_stream_listen(&tcp, &local, number, &listener)) \
    each(stream_accept, iface_stream_accept(&tcp, listener, &stream)) \
    each(streams_changed, iface_streams_changed(&tcp, &stream)) \
    each(stream_close_listener, iface_stream_close_listener(&tcp, listener)) \
    each(stream_connect, iface_stream_connect(&tcp, &host, now, &local, &end, &stream)) \
    each(stream_send, iface_stream_send(&tcp, &stream, payload, given, &length)) \
    each(stream_receive, iface_stream_receive(&tcp, &stream, out, sizeof out, &length)) \
    each(stream_peek, iface_stream_peek(&tcp, &stream, out, sizeof out, &length)) \
    each(stream_close, iface_stream_close(&tcp, &stream)) \
    each(stream_abort, iface_stream_abort(&tcp, &stream)) \
    each(stream_release, iface_stream_release(&tcp, &stream)) \
    each(stream_state, iface_stream_state(&tcp, &stream, &number)) \
    each(stream_ending, iface_stream_ending(&tcp, &stream, &number)) \
    each(stream_ends, iface_stream_ends(&tcp, &stream, &local, &end)) \
    each(stream_rooms, iface_stream_rooms(&tcp, &stream, &writable, &length)) \
    each(stream_set_nagle, iface_stream_set_nagle(&tcp, &stream, flag)) \
    each(stream_set_ack_delay, iface_stream_set_ack_delay(&tcp, &stream, count)) \
    each(stream_set_keep_alive, iface_stream_set_keep_alive(&tcp, &stream, count)) \
    each(stream_set_timeout, iface_stream_set_timeout(&tcp, &stream, count)) \
    each(stream_set_hop_limit, iface_stream_set_hop_limit(&tcp, &stream, flag))

#define NUMBER(name, expression) CALL_##name,
#define FUNCTION(name, expression) static void do_##name(void) { code = (expression); }
#define ENTRY(name, expression) {"iface_" #name, do_##name, 0},

enum { CALLS(NUMBER) CALL_COUNT };
CALLS(FUNCTION)
static struct {
    const char *name;
    void (*function)(void);
    size_t most;
} calls[] = {CALLS(ENTRY)};

static size_t taken_by_none; /* by a call that does nothing */

static void do_nothing(void) {
    code = IFACE_OK;
}

static uint32_t make(int which) {
    size_t used = used_by(calls[which].function) - taken_by_none;
    if (used > calls[which].most) calls[which].most = used;
    return code;
}

#define MAKE(name) make(CALL_##name)

static void must(int which) {
    if (make(which) == IFACE_OK) return;
    printf("WRONG: %s: %s\n", calls[which].name, iface_strerror(code));
    exit(1);
}

#define MUST(name) must(CALL_##name)

/* ---- frames ---- */

static uint64_t word(void) { /* xorshift */
    static uint64_t state = 42;
    state ^= state << 13, state ^= state >> 7, state ^= state << 17;
    return state;
}

static void sum_into(uint8_t *place, const uint8_t *words, size_t n, uint32_t sum) {
    for (size_t i = 0; i < n; i++) sum += (uint32_t)words[i] << (i % 2 ? 0 : 8);
    while (sum >> 16) sum = (sum & 0xffff) + (sum >> 16);
    place[0] = (uint8_t)(~sum >> 8), place[1] = (uint8_t)~sum;
}

/* The frame from 02::2 with this type, whose packet has so many octets behind its header. */
static uint8_t *ethernet(uint16_t type, size_t n) {
    static const uint8_t head[] = {2, 0, 0, 0, 0, 1, 2, 0, 0, 0, 0, 2};
    memset(frame, 0, sizeof frame);
    memcpy(frame, head, sizeof head);
    frame[12] = (uint8_t)(type >> 8), frame[13] = (uint8_t)type;
    given = 14 + n;
    return frame + 14;
}

/* A packet of IPv4 to 192.168.69.1: its flags and offset, and its payload. `sum_at` is where that has its checksum,
 * over the pseudo-header or not; 0 for none. */
static void packet4(uint8_t kind, uint16_t fragment, const uint8_t *data, size_t n, size_t sum_at, bool is_pseudo) {
    static const uint8_t ends[] = {192, 168, 69, 2, 192, 168, 69, 1};
    uint8_t *p = ethernet(0x800, 20 + n);
    p[0] = 0x45, p[2] = (uint8_t)((20 + n) >> 8), p[3] = (uint8_t)(20 + n), p[5] = 7;
    p[6] = (uint8_t)(fragment >> 8), p[7] = (uint8_t)fragment, p[8] = 64, p[9] = kind;
    memcpy(p + 12, ends, 8);
    sum_into(p + 10, p, 20, 0);
    memcpy(p + 20, data, n);
    uint32_t pseudo = is_pseudo ? kind + (uint32_t)n : 0;
    for (size_t i = 0; is_pseudo && i < 8; i++) pseudo += (uint32_t)ends[i] << (i % 2 ? 0 : 8);
    if (sum_at) sum_into(p + 20 + sum_at, p + 20, n, pseudo);
}

/* A packet of IPv6 from fe80::2 to fe80::1, or to ff02::1. `sum_at` is counted from the payload, whose message begins
 * at `from`. */
static void packet6(uint8_t next, bool is_to_all, const uint8_t *data, size_t n, size_t from, uint8_t kind,
                    size_t sum_at) {
    uint8_t *p = ethernet(0x86dd, 40 + n);
    if (is_to_all) frame[0] = frame[1] = 0x33, frame[5] = 1;
    p[0] = 0x60, p[4] = (uint8_t)(n >> 8), p[5] = (uint8_t)n, p[6] = next, p[7] = next == 0 ? 1 : kind == 58 ? 255 : 64;
    p[8] = 0xfe, p[9] = 0x80, p[23] = 2;
    p[24] = is_to_all ? 0xff : 0xfe, p[25] = is_to_all ? 2 : 0x80, p[39] = 1;
    memcpy(p + 40, data, n);
    if (sum_at == 0) return;
    uint32_t pseudo = kind + (uint32_t)(n - from);
    for (size_t i = 8; i < 40; i++) pseudo += (uint32_t)p[i] << (i % 2 ? 0 : 8);
    sum_into(p + 40 + from + sum_at, p + 40 + from, n - from, pseudo);
}

enum { KINDS = 25 };

/* The frame of a kind. */
static void fill_in(int kind) {
    static const uint8_t arp[] = {0, 1, 8, 0, 6, 4, 0, 1, 2, 0, 0, 0, 0, 2, 192, 168, 69, 2,
                                  2, 0, 0, 0, 0, 1, 192, 168, 69, 1};
    static const uint8_t own6[16] = {0xfe, 0x80, [15] = 1}, peer6[16] = {0xfe, 0x80, [15] = 2};
    static const uint8_t syn[20] = {0, 9, 0, 80, 0, 0, 0, 1, 0, 0, 0, 0, 0x50, 2, 4, 0};
    uint8_t d[1480] = {0};
    d[1] = 9, d[3] = kind % 2 ? 7 : 8, d[5] = 8 + 64; /* a datagram of 64 octets from port 9 to port 7 or 8 */
    switch (kind) {
    case 0: memcpy(ethernet(0x806, sizeof arp), arp, sizeof arp); break;
    case 1: memcpy(ethernet(0x806, sizeof arp), arp, sizeof arp), frame[21] = 2; break;
    case 2: case 3: packet4(17, 0, d, 72, 6, true); break;
    case 4: case 5: packet6(17, false, d, 72, 0, 17, 6); break;
    case 6: d[0] = 8, d[1] = 0, d[5] = 42; packet4(1, 0, d, 64, 2, false); break;
    case 7: d[0] = 0, d[1] = 0, d[5] = 42; packet4(1, 0, d, 64, 2, false); break;
    case 8: d[0] = 128, d[1] = 0, d[5] = 42; packet6(58, false, d, 1408, 0, 58, 2); break;
    case 9: d[0] = 129, d[1] = 0, d[5] = 42; packet6(58, false, d, 64, 0, 58, 2); break;
    /* An echo request of 4,000 octets in three pieces, whose sum is that of its first words: the rest is zeros. */
    case 10:
        memset(d, 0, sizeof d), d[0] = 8, d[5] = 42, sum_into(d + 2, d, 8, 0);
        packet4(1, 0x2000, d, 1480, 0, false);
        break;
    case 11: memset(d, 0, sizeof d); packet4(1, 0x2000 | 185, d, 1480, 0, false); break;
    case 12: memset(d, 0, sizeof d); packet4(1, 370, d, 1048, 0, false); break;
    case 13: packet4(6, 0, syn, sizeof syn, 16, true); break;
    case 14: packet6(6, false, syn, sizeof syn, 0, 6, 16); break;
    case 15: packet4(253, 0, d, 100, 0, false); break;
    case 16: packet4(2, 0, (const uint8_t[]){0x11, 10, 0, 0, 0, 0, 0, 0}, 8, 2, false); break;
    case 17: /* a solicitation */
        memset(d, 0, 32), d[0] = 135, memcpy(d + 8, own6, 16), memcpy(d + 24, "\1\1\2\0\0\0\0\2", 8);
        packet6(58, false, d, 32, 0, 58, 2);
        break;
    case 18: /* an advertisement */
        memset(d, 0, 32), d[0] = 136, d[4] = 0x60, memcpy(d + 8, peer6, 16), memcpy(d + 24, "\2\1\2\0\0\0\0\2", 8);
        packet6(58, false, d, 32, 0, 58, 2);
        break;
    case 19: /* a router's advertisement, with a prefix */
        memset(d, 0, 48), d[0] = 134, d[4] = 64, d[7] = 200;
        memcpy(d + 16, "\3\4\100\300\0\0\2\0\0\0\1\0\0\0\0\0\40\1\15\270", 20);
        packet6(58, true, d, 48, 0, 58, 2);
        break;
    case 20: /* a query of MLD, behind a router alert */
        memset(d, 0, 36), memcpy(d, "\72\0\5\2\0\0\1\0\202\0\0\0\0\12", 14);
        packet6(0, true, d, 36, 8, 58, 2);
        break;
    case 21: memset(d, 0, 16), d[0] = 17, d[2] = 0xde, d[3] = 4; packet6(0, false, d, 16, 0, 0, 0); break;
    case 22: packet6(253, false, d, 100, 0, 0, 0); break;
    case 23: /* short pieces in any order, with gaps */
        memset(d, 0, 16), packet4(17, (uint16_t)((word() % 8 ? 0x2000 : 0) | word() % 40), d, 8, 0, false);
        break;
    default: /* a port unreachable for a datagram from port 7 */
        memset(d, 0, 36), d[0] = 3, d[1] = 3;
        memcpy(d + 8, "\105\0\0\34\0\0\0\0\100\21\0\0\300\250\105\1\300\250\105\2\0\7\0\11\0\10\0\0", 28);
        sum_into(d + 18, d + 8, 20, 0);
        packet4(1, 0, d, 36, 2, false);
    }
}

/* ---- what is done ---- */

static struct iface_address v4(uint8_t a, uint8_t b, uint8_t c, uint8_t d) {
    return (struct iface_address){4, {a, b, c, d}};
}

static struct iface_address v6(uint8_t a, uint8_t b, uint8_t last) {
    return (struct iface_address){6, {a, b, [15] = last}};
}

static void set_up(uint8_t medium) {
    MUST(config_init);
    config.slaac = 1, config.medium = medium, config.hardware_address[0] = 2, config.hardware_address[5] = 1;
    MUST(new_for);
    address = v4(192, 168, 69, 1), prefix_len = 24, MUST(add_address);
    address = v6(0xfe, 0x80, 1), prefix_len = 64, MUST(add_address);
    address = v4(10, 0, 0, 1), prefix_len = 8, MUST(add_address), MUST(remove_address);
    number = 1, MUST(address_at);
    for (list_length = 0; list_length < 2; list_length++) {
        number = (uint32_t)list_length, MUST(address_at);
        list[list_length].address = other, list[list_length].prefix_len = prefix_len;
    }
    for (; list_length < 4; list_length++)
        list[list_length].address = v4(10, 0, 0, (uint8_t)list_length), list[list_length].prefix_len = 8;
    MUST(set_addresses), list_length = 2, MUST(set_addresses);
    hardware[0] = 2, MUST(link_local);
    address = v4(239, 69, 69, 69), MUST(join_group);
    address = v6(0xff, 0x15, 9), MUST(join_group);
    address = v4(239, 69, 69, 70), MUST(join_group), MUST(has_group), MUST(leave_group), MUST(has_group);
    if (medium == IFACE_ETHERNET) MUST(hardware_address), MUST(set_hardware_address);
    MUST(reassembly_timeout), MUST(set_reassembly_timeout), MUST(any_ip), MUST(set_any_ip), MUST(slaac_updated_at);
    address = v4(192, 168, 69, 2), MUST(set_default_route), MUST(set_default_route);
    address = v4(172, 16, 0, 0), other = v4(192, 168, 69, 2), prefix_len = 12, MUST(add_route);
    address = v6(0x20, 1, 0), other = v6(0xfe, 0x80, 2), prefix_len = 48, MUST(add_route);
    address = v4(192, 168, 69, 2), MUST(set_default_route); /* in place of the first one */
    address = v4(172, 16, 0, 0), other = v4(192, 168, 69, 2), prefix_len = 12, MUST(remove_route), MUST(add_route);
    address = v4(172, 32, 0, 0), at = 1000, MUST(add_route_until), number = 2, MUST(route_at), MUST(remove_route);
    address = v4(172, 16, 1, 1), MUST(source_for), address = v6(0xfe, 0x80, 2), MUST(source_for);
    end.address.version = 0, end.port = 7, MUST(udp_open); /* 0 */
    protocol = 253, MUST(raw_open);                        /* 1 */
    ident = 42, MUST(icmp_open_ident);                     /* 2 */
    end.port = 7, MUST(icmp_open_port);                    /* 3 */
    end.port = 80, MUST(tcp_open);                         /* 4 */
    end.port = 99, MUST(udp_open), MUST(close);            /* 5 */
    for (socket_number = 0; socket_number <= 4; socket_number += 2) MUST(hop_limit), MUST(set_hop_limit);
}

/* What a socket can be asked and given, and rounds until nothing is sent. */
static void turn(void) {
    static const size_t lengths[] = {1, 64, 1400, 4000};
    static uint32_t turns;
    const struct iface_address ends[] = {v4(192, 168, 69, 2), v6(0xfe, 0x80, 2), v4(172, 16, 1, 1),
                                         v4(192, 168, 69, 77)};
    while (socket_number = 0, MAKE(udp_peek), MAKE(udp_receive) == IFACE_OK) given = length, MAKE(udp_send);
    while (socket_number = 1, MAKE(raw_peek), MAKE(raw_receive) == IFACE_OK)
        given = length, memcpy(payload, out, length), MAKE(raw_send);
    while (socket_number = 2, MAKE(icmp_peek), MAKE(icmp_receive) == IFACE_OK) given = length, MAKE(icmp_send);
    while (socket_number = 3, MAKE(icmp_receive) == IFACE_OK) {}
    while (socket_number = 4, MAKE(tcp_peek), MAKE(tcp_receive) == IFACE_OK)
        given = 64, segment.ack = segment.seq + 1, segment.has_ack = 1, MAKE(tcp_hold), MAKE(tcp_send);
    end = (struct iface_endpoint){ends[word() % 4], 9};
    given = lengths[word() % (end.address.version == 4 ? 4 : 3)], socket_number = 0, MAKE(udp_send);
    address = ends[word() % 2], given = 64, socket_number = 2;
    memcpy(payload, address.version == 4 ? "\10\0\0\0\0\52\0\1" : "\200\0\0\0\0\52\0\1", 8), MAKE(icmp_send);
    for (int i = 0; i < 40 && MAKE(next) == IFACE_OK && length > 0; i++) {}
    MUST(poll_at), MUST(given_up_count), MUST(sockets_changed), MUST(counters), MUST(guard_drops), MAKE(guard_conflict);
    MAKE(guard_pinned_conflict), MAKE(guard_pin), MAKE(guard_unpin);
    socket_number = number = turns++ % 4, MUST(queues), MAKE(neighbor_at);
    socket_number = 0, MAKE(waiting), MAKE(given_up);
}

/* The client does what is due, and what it sends is answered by a message of a type. */
static void lease_step(uint8_t type) {
    MUST(dhcp_poll), MUST(dhcp_poll_at), MUST(dhcp_lost);
    memset(out, 0, AT_CLIENT + 6);
    MUST(next);
    given = lease_reply(frame, out, type, 50, 120), MUST(receive);
}

/* A host without an address leases one, renews it, and gives it up. */
static void take_leases(void) {
    MUST(config_init);
    config.hardware_address[0] = 2, config.hardware_address[5] = 1;
    MUST(new_for);
    address.version = 0, MUST(dhcp_new);
    given = 4, MUST(dhcp_parameters), MUST(dhcp_host_name), MUST(dhcp_set_probing);
    lease_step(OFFER), lease_step(ACK);
    MUST(dhcp_poll), MUST(dhcp_lease), MUST(dhcp_option), MUST(dhcp_apply);
    now = at, now += 60000000, MUST(dhcp_poll), MUST(next);
    now += 55000000, lease_step(NAK);
    MUST(dhcp_poll), MUST(dhcp_apply), MUST(next);
    now += 60000000, lease_step(OFFER), now += 5000000, lease_step(ACK), MUST(dhcp_poll), MUST(dhcp_release), MUST(dhcp_declined);
    MUST(dhcp_reset), MUST(dhcp_free), MUST(free);
}

/* What is sent is answered by a message of these flags and records. */
static void answer_names(const char *flags, uint8_t records, const char *octets, size_t n) {
    MUST(dns_poll), MUST(dns_poll_at), MUST(next);
    given = name_answer(frame, out, length, flags, records, octets, n), MUST(receive);
    MUST(dns_poll), MUST(dns_result);
}

/* A host asks for the longest names: answers with aliases, with other names, and none. */
static void ask_names(void) {
    static char loop[9 * 14 + 1];
    MUST(config_init), config.medium = IFACE_IP, config.frame_len = 1500;
    MUST(new_for);
    address = v4(10, 0, 0, 1), prefix_len = 24, MUST(add_address);
    for (int i = 0; i < 253; i++) name[i] = i % 64 == 63 ? '.' : 'a';
    number = 4, servers[0] = v4(10, 0, 0, 2), MUST(dns_new), servers[1] = v4(10, 0, 0, 3), MUST(dns_servers);
    number = IFACE_DNS_A, given = 253, MUST(dns_start), MUST(dns_result);
    answer_names(GOOD, 1, RECORD_1, sizeof RECORD_1 - 1);
    given = 253, MUST(dns_start);
    for (int i = 0; i < 9; i++) memcpy(loop + i * 14, "\300\14\0\5\0\1\0\0\1\54\0\2\300\14", 14);
    answer_names(GOOD, 9, loop, sizeof loop - 1);
    given = 253, MUST(dns_start);
    answer_names(NO_NAME, 0, "", 0);
    MUST(dns_cancel), number = IFACE_DNS_AAAA, given = 253, MUST(dns_start);
    for (int i = 0; i < 6; i++) MUST(dns_poll), MUST(dns_poll_at), MUST(next), now = at;
    MUST(dns_poll), MUST(dns_cancel), MUST(dns_free), MUST(free);
}

/* Another host with connections, to which the host of the calls speaks. Its own calls aren't counted. */
static iface peer_host = IFACE_NONE;
static iface_streams peer_tcp = IFACE_STREAMS_NONE;

/* Segments go both ways, until none is left. */
static void exchange_segments(void) {
    size_t n;
    do {
        MUST(streams_poll), MUST(streams_poll_at), iface_streams_poll(&peer_tcp, &peer_host, now);
        MUST(next);
        if ((writable = length)) iface_receive(&peer_host, now, out, length, frame, sizeof frame, &n);
        iface_next(&peer_host, now, frame, sizeof frame, &given);
        if (given) MUST(receive);
    } while (writable || given);
}

/* Octets go both ways by a connection, whose other side has a name of its own. */
static void exchange_octets(const struct iface_stream *theirs) {
    static uint8_t came[4096];
    size_t n;
    for (int i = 0; i < 20; i++, now += 1000) {
        given = word() % sizeof came, MUST(stream_send), MUST(stream_rooms), MUST(stream_state), MUST(stream_ending);
        iface_stream_send(&peer_tcp, theirs, payload, word() % sizeof came, &n);
        exchange_segments();
        MUST(stream_peek), MUST(stream_receive);
        iface_stream_receive(&peer_tcp, theirs, came, sizeof came, &n);
        exchange_segments();
    }
    MUST(stream_set_nagle), MUST(stream_set_ack_delay), MUST(stream_set_keep_alive), MUST(stream_set_timeout), MUST(stream_ends);
}

/* A host with connections of TCP: a peer comes, then the host connects to it. */
static void speak_tcp(void) {
    static const struct iface_address own[] = {{4, {10, 0, 0, 1}}, {4, {10, 0, 0, 2}}};
    struct iface_endpoint to = {own[0], 7}, from = {IFACE_ANY, 4000};
    struct iface_stream theirs;
    MUST(config_init), config.medium = IFACE_IP, config.frame_len = 1500;
    MUST(new_for), iface_new(&peer_host, &config);
    prefix_len = 24, address = own[0], MUST(add_address), iface_add_address(&peer_host, &own[1], 24);
    MUST(streams_config_init), streams_config.number_key[0] = 1, streams_config.table_key[0] = 2, streams_config.places = 2, streams_config.packet_octets = 16384, MUST(streams_new), iface_streams_new(&peer_tcp, &peer_host, &streams_config);
    local = (struct iface_endpoint){IFACE_ANY, 7}, number = 4, MUST(stream_listen);
    iface_stream_connect(&peer_tcp, &peer_host, now, &from, &to, &theirs);
    exchange_segments(), MUST(stream_accept), MUST(streams_changed), exchange_octets(&theirs);
    iface_stream_close(&peer_tcp, &theirs), exchange_segments(), MUST(stream_close), exchange_segments(), MUST(stream_release);
    iface_stream_listen(&peer_tcp, &to, 4, &listener), iface_stream_listen(&peer_tcp, &from, 4, &listener);
    local.port = 5000, end = (struct iface_endpoint){own[1], 4000}, local.address.version = 0, MUST(stream_connect);
    exchange_segments(), iface_stream_accept(&peer_tcp, listener, &theirs), exchange_octets(&theirs);
    flag = 64, MUST(stream_set_hop_limit), listener = 0, MUST(stream_close_listener);
    MUST(stream_abort), exchange_segments(), MUST(stream_release);
    iface_streams_free(&peer_tcp, &peer_host), iface_free(&peer_host);
    MUST(streams_free), MUST(free);
}

int main(void) {
    int wrong = 0;
    taken_by_none = used_by(do_nothing);
    take_leases();
    ask_names();
    speak_tcp();
    for (uint8_t medium = 0; medium < 2; medium++) {
        set_up(medium);
        for (int i = 0; i < 5000; i++) {
            fill_in(i < 1000 ? i % KINDS : (int)(word() % KINDS));
            if (medium) given -= 14, memmove(frame, frame + 14, given);
            if (i >= 2000 && word() % 4 == 0) frame[word() % given] ^= (uint8_t)(1 << word() % 8);
            if (i >= 2000 && word() % 16 == 0) given = word() % given;
            MUST(receive);
            turn();
            now += word() % 32 ? 1000 : (int64_t)(word() % 20000000);
            if (i == 4000) socket_number = 4, MUST(tcp_abort);
        }
        MUST(free);
    }
    for (int i = 0; i < CALL_COUNT; i++) {
        printf("%-24s %zu\n", calls[i].name, calls[i].most);
        wrong |= calls[i].most == 0;
    }
    return wrong;
}
