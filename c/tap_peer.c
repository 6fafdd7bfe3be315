/* The other end of the examples on a TAP device, by the sockets of Linux. It prints what it saw, and fails if
 * something else came than was sent, or nothing.
 *
 *   tap_peer host        of tap_host: UDP echoes of all lengths over both families, groups, and ports where nobody listens
 *   tap_peer router      of slaac_echo: advertises 2001:db8:69::/64 to who solicits, and then tries an echo at the new address
 */
#define _GNU_SOURCE
#include <arpa/inet.h>
#include <errno.h>
#include <net/if.h>
#include <netinet/in.h>
#include <stdio.h>
#include <stdlib.h>
#include <string.h>
#include <sys/socket.h>
#include <sys/time.h>
#include <time.h>
#include <unistd.h>

static int failures;

static struct sockaddr_storage end_of(const char *text, uint16_t port, socklen_t *length) {
    struct sockaddr_storage s;
    memset(&s, 0, sizeof s);
    if (strchr(text, ':')) {
        struct sockaddr_in6 *a = (struct sockaddr_in6 *)&s;
        a->sin6_family = AF_INET6, a->sin6_port = htons(port);
        a->sin6_scope_id = if_nametoindex("tap0");
        inet_pton(AF_INET6, text, &a->sin6_addr);
        *length = sizeof *a;
    } else {
        struct sockaddr_in *a = (struct sockaddr_in *)&s;
        a->sin_family = AF_INET, a->sin_port = htons(port);
        inet_pton(AF_INET, text, &a->sin_addr);
        *length = sizeof *a;
    }
    return s;
}

/* A socket for an end that waits for so many milliseconds, connected or not. */
static int socket_to(const char *text, uint16_t port, int is_connected, int millis) {
    socklen_t length;
    struct sockaddr_storage end = end_of(text, port, &length);
    struct timeval patience = {millis / 1000, millis % 1000 * 1000};
    int index = (int)if_nametoindex("tap0");
    struct ip_mreqn by = {.imr_ifindex = index};
    int s = socket(end.ss_family, SOCK_DGRAM, 0);
    setsockopt(s, SOL_SOCKET, SO_RCVTIMEO, &patience, sizeof patience);
    setsockopt(s, IPPROTO_IP, IP_MULTICAST_IF, &by, sizeof by);
    if (end.ss_family == AF_INET6) setsockopt(s, IPPROTO_IPV6, IPV6_MULTICAST_IF, &index, sizeof index);
    if (is_connected && connect(s, (struct sockaddr *)&end, length) < 0) perror(text), exit(1);
    return s;
}

static void fill(uint8_t *octets, size_t length) {
    for (size_t i = 0; i < length; i++) octets[i] = (uint8_t)rand();
}

/* All lengths from one to another, one at a time. */
static void echo_lengths(const char *to, uint16_t port, size_t first, size_t last) {
    static uint8_t sent[65536], got[65536];
    size_t equal = 0, wrong = 0, lost = 0;
    int s = socket_to(to, port, 1, 2000);
    for (size_t length = first; length <= last; length++) {
        fill(sent, length);
        if (send(s, sent, length, 0) != (ssize_t)length) perror("send");
        ssize_t n = recv(s, got, sizeof got, 0);
        if (n < 0) lost++;
        else if ((size_t)n == length && memcmp(sent, got, length) == 0) equal++;
        else wrong++;
    }
    printf("%s: lengths %zu to %zu: %zu echoed equal, %zu wrong, %zu lost\n", to, first, last, equal, wrong, lost);
    failures += wrong || lost;
    close(s);
}

/* Many of one length, one at a time. */
static void echo_many(const char *to, size_t length, int rounds) {
    static uint8_t sent[65536], got[65536];
    int equal = 0, s = socket_to(to, 6969, 1, 2000);
    struct timespec a, b;
    clock_gettime(CLOCK_MONOTONIC, &a);
    for (int i = 0; i < rounds; i++) {
        memset(sent, i, length);
        if (send(s, sent, length, 0) < 0) perror("send");
        equal += recv(s, got, sizeof got, 0) == (ssize_t)length && memcmp(sent, got, length) == 0;
    }
    clock_gettime(CLOCK_MONOTONIC, &b);
    double spent = (double)(b.tv_sec - a.tv_sec) + (double)(b.tv_nsec - a.tv_nsec) * 1e-9;
    printf("%s: %d of %d of %zu octets echoed equal, %.0f round trips a second\n", to, equal, rounds, length, rounds / spent);
    failures += equal != rounds;
    close(s);
}

/* A datagram to a group, which is echoed exactly if the host is in it. */
static void echo_group(const char *group, int is_joined) {
    char got[16] = "";
    socklen_t length;
    struct sockaddr_storage to = end_of(group, 6969, &length);
    int s = socket_to(group, 6969, 0, is_joined ? 2000 : 300);
    if (sendto(s, "hello", 5, 0, (struct sockaddr *)&to, length) != 5) perror(group);
    int came = recv(s, got, sizeof got, 0) == 5 && memcmp(got, "hello", 5) == 0;
    printf("%s: %s\n", group, came ? "echoed" : "no answer");
    failures += came != is_joined;
    close(s);
}

/* Nobody listens at a port: an ICMP message says so. */
static void closed_port(const char *to) {
    char got[16];
    int s = socket_to(to, 6970, 1, 2000);
    if (send(s, "x", 1, 0) != 1) perror("send");
    int refused = recv(s, got, sizeof got, 0) < 0 && errno == ECONNREFUSED;
    printf("%s, port 6970: %s\n", to, refused ? "refused by ICMP" : "no refusal");
    failures += !refused;
    close(s);
}

/* Waits for a router solicitation (RFC 4861, 4.1), and advertises a prefix to all nodes (4.2, 4.6.2). Whether one
 * came. */
static int advertise(void) {
    static const uint8_t advertisement[48] = {134, [4] = 64, [7] = 200, /* a router for 200 s */
                                              [16] = 3, 4, 64, 0xc0, 0, 0, 2, 0, 0, 0, 1, 0,
                                              [32] = 0x20, 1, 0x0d, 0xb8, 0, 0x69};
    int s = socket(AF_INET6, SOCK_RAW, IPPROTO_ICMPV6), hops = 255, came = 0;
    struct timeval patience = {5, 0};
    struct ipv6_mreq routers = {.ipv6mr_interface = if_nametoindex("tap0")};
    struct sockaddr_in6 all = {.sin6_family = AF_INET6, .sin6_scope_id = if_nametoindex("tap0")};
    uint8_t got[2048];
    inet_pton(AF_INET6, "ff02::2", &routers.ipv6mr_multiaddr);
    inet_pton(AF_INET6, "ff02::1", &all.sin6_addr);
    setsockopt(s, SOL_SOCKET, SO_RCVTIMEO, &patience, sizeof patience);
    setsockopt(s, IPPROTO_IPV6, IPV6_MULTICAST_HOPS, &hops, sizeof hops);
    setsockopt(s, IPPROTO_IPV6, IPV6_JOIN_GROUP, &routers, sizeof routers);
    while (!came && recv(s, got, sizeof got, 0) > 0) came = got[0] == 133;
    ssize_t sent = sendto(s, advertisement, sizeof advertisement, 0, (struct sockaddr *)&all, sizeof all);
    if (sent != (ssize_t)sizeof advertisement) perror("advertisement");
    printf("router: %s, and advertised 2001:db8:69::/64\n", came ? "was solicited" : "no solicitation came");
    close(s);
    return came;
}

int main(int argc, char **argv) {
    if (argc == 2 && strcmp(argv[1], "router") == 0) {
        failures += !advertise();
        sleep(1);
        echo_lengths("2001:db8:69::ff:fe00:3", 7, 0, 100);
        return failures != 0;
    }
    echo_lengths("192.168.69.1", 6969, 0, 1472);
    echo_lengths("fd69::1", 6969, 0, 1452);
    echo_lengths("192.168.69.1", 6969, 1473, 4068); /* in pieces, both ways */
    echo_many("192.168.69.1", 64, 20000);
    echo_many("fd69::1", 64, 20000);
    echo_group("239.69.69.69", 1);
    echo_group("ff15::69", 1);
    echo_group("239.69.69.70", 0);
    echo_group("ff15::70", 0);
    closed_port("192.168.69.1");
    closed_port("fd69::1");
    return failures != 0;
}
