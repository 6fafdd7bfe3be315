/* Asks for the addresses of a name by DNS (RFC 1035), as a host on a TAP device of Linux, and prints one a line.
 *
 *   lookup DEVICE OWN/PREFIX SERVER[,SERVER..] NAME [A|AAAA]      the device exists; up to three servers on its link, as
 *                                                                 192.168.69.100; it ends with 1 if there is no address
 */
#include "tap.h"

#include <sys/random.h>

static const char *const why[] = {
    [IFACE_DNS_NO_SUCH_NAME] = "no such name",
    [IFACE_DNS_SERVER_FAILURE] = "the servers failed",
    [IFACE_DNS_TRUNCATED] = "the answer is too long",
    [IFACE_DNS_NO_ADDRESS] = "no address",
    [IFACE_DNS_TOO_MANY_ALIASES] = "too many aliases",
    [IFACE_DNS_TIMED_OUT] = "no server answered",
};

/* Servers by their text, one after another. */
static void read_servers(char *text, struct iface_address *servers) {
    int count = 0;
    for (char *one = strtok(text, ","); one; one = strtok(NULL, ",")) {
        if (count == IFACE_DNS_SERVERS) must("a fourth server", IFACE_TABLE_FULL);
        servers[count++] = address_of(one);
    }
}

/* Sends and takes frames until a query has its result. */
static void await_result(iface_dns *dns, iface *host, int tap, size_t query, struct iface_dns_answer *result) {
    for (;;) {
        int64_t at, due;
        must("dns", iface_dns_poll(dns, host, now_micros()));
        send_all(host, tap, &at);
        must("result", iface_dns_result(dns, query, result));
        if (result->state != IFACE_DNS_PENDING) return;
        must("dns", iface_dns_poll_at(dns, &due));
        sleep_until(tap, at < due ? at : due);
        for (int burst = 0; burst < 64; burst++)
            if (!take_frame(host, tap)) break;
    }
}

int main(int argc, char **argv) {
    if (argc != 5 && argc != 6) {
        fprintf(stderr, "usage: lookup DEVICE OWN/PREFIX SERVER[,SERVER..] NAME [A|AAAA]\n");
        return 2;
    }
    iface host = IFACE_NONE;
    iface_dns dns = IFACE_DNS_NONE;
    struct iface_config config;
    struct iface_cidr own = cidr_of(argv[2]);
    struct iface_address servers[IFACE_DNS_SERVERS] = {IFACE_ANY, IFACE_ANY, IFACE_ANY};
    struct iface_dns_answer result;
    uint32_t type = argc == 6 && strcmp(argv[5], "AAAA") == 0 ? IFACE_DNS_AAAA : IFACE_DNS_A;
    uint64_t key[2];
    size_t query;
    read_servers(argv[3], servers);
    int tap = open_tap(argv[1]);
    await_link(argv[1]);
    if (getrandom(key, sizeof key, 0) != sizeof key) must("secret", IFACE_NO_ROOM);
    iface_config_init(&config);
    config.seed = (uint64_t)now_micros(), config.hardware_address[0] = 2, config.hardware_address[5] = 1;
    must("host", iface_new(&host, &config));
    must("address", iface_add_address(&host, &own.address, own.prefix_len));
    must("client", iface_dns_new(&dns, 1, key, servers));
    must(argv[4], iface_dns_start(&dns, &host, now_micros(), argv[4], strlen(argv[4]), type, &query));
    await_result(&dns, &host, tap, query, &result);
    must("free", iface_dns_free(&dns, &host));
    must("free", iface_free(&host));
    if (result.state != IFACE_DNS_FOUND && result.state != IFACE_DNS_FOUND_TRUNCATED) {
        fprintf(stderr, "%s: %s\n", argv[4], why[result.state]);
        return 1;
    }
    for (int i = 0; i < IFACE_DNS_ADDRESSES && result.addresses[i].version; i++) puts(text_of(&result.addresses[i]));
    return 0;
}
