/* An address by DHCP, and the address of a name by DNS. */
#ifndef BOARDS_LEASE_H
#define BOARDS_LEASE_H

#include "host.h"

#ifndef NAME
#define NAME "www.example.com"
#endif

static iface_dhcp client = IFACE_DHCP_NONE;
static iface_dns names = IFACE_DNS_NONE;
static struct iface_address answered; /* the address of the name, once it is known */
static uint64_t query;
static int has_address, is_asking;

static inline void make_clients(iface *host) {
    struct iface_address none = IFACE_ANY, servers[IFACE_DNS_SERVERS] = {IFACE_ANY};
    uint64_t key[2];
    board_draw(key, sizeof key);
    must("DHCP", iface_dhcp_new(&client, host, key[0], &none));
    board_draw(key, sizeof key);
    must("DNS", iface_dns_new(&names, 1, key, servers));
}

/* Gives the host the address that was leased, and asks its servers of names. */
static inline void lease_address(iface *host, int64_t now) {
    struct iface_lease lease;
    uint32_t event;
    must("DHCP", iface_dhcp_poll(&client, host, now, &event));
    if (event == IFACE_DHCP_NOTHING) return;
    must("lease", iface_dhcp_apply(&client, host));
    has_address = iface_dhcp_lease(&client, &lease) == IFACE_OK;
    say("address: ", has_address ? text_of(&lease.address) : "none");
    if (!has_address || is_asking) return;
    must("servers", iface_dns_servers(&names, lease.dns_servers));
    must(NAME, iface_dns_start(&names, host, now, NAME, sizeof NAME - 1, IFACE_DNS_A, &query));
    is_asking = 1;
}

/* Prints the address of the name once it is known. */
static inline void ask_for_name(iface *host, int64_t now) {
    struct iface_dns_answer answer;
    must("names", iface_dns_poll(&names, host, now));
    if (!is_asking) return;
    must("name", iface_dns_result(&names, query, &answer));
    if (answer.state == IFACE_DNS_PENDING) return;
    if (answer.state == IFACE_DNS_FOUND) answered = answer.addresses[0];
    say(NAME ": ", answer.state == IFACE_DNS_FOUND ? text_of(&answered) : "not found");
    must("name", iface_dns_cancel(&names, host, query));
    is_asking = 0;
}

/* What is due of both clients. */
static inline void poll_clients(iface *host, int64_t now) {
    lease_address(host, now);
    ask_for_name(host, now);
}

/* When there is more, if no frame comes before. */
static inline int64_t poll_clients_at(void) {
    int64_t leased_at, asked_at;
    must("DHCP", iface_dhcp_poll_at(&client, &leased_at));
    must("names", iface_dns_poll_at(&names, &asked_at));
    return earlier(leased_at, asked_at);
}

#endif
