/* A host with nothing but a hardware address: it leases its address by DHCP on a TAP device of Linux (RFC 2131), and answers
 * ARP and ping from then on. Each line that it prints is what has become of its lease.
 *
 *   dhcp_host DEVICE SECONDS [ADDRESS]      the device exists; it ends by itself after so many seconds, or by SIGTERM; the
 *                                           address is one that it had before, which it asks for first
 */
#include "tap.h"

#include <signal.h>

static volatile sig_atomic_t is_over;

static void on_signal(int number) {
    (void)number;
    is_over = 1;
}

static void print_lease(const struct iface_lease *lease, int64_t now) {
    printf("leased %s/%u", text_of(&lease->address), lease->prefix_len);
    printf(" by %s", text_of(&lease->server));
    if (lease->router.version) printf(", router %s", text_of(&lease->router));
    for (int i = 0; i < 3 && lease->dns_servers[i].version; i++) printf(", names %s", text_of(&lease->dns_servers[i]));
    if (lease->mtu) printf(", packets of %u", lease->mtu);
    if (lease->expires_at == IFACE_NEVER) printf(", for ever\n");
    else printf(", for %.0f s\n", (double)(lease->expires_at - now) / 1e6);
    fflush(stdout);
}

/* Lets the client do what is due, and the host have what was leased. */
static void lease_address(iface_dhcp *client, iface *host) {
    struct iface_lease lease;
    uint32_t event;
    int64_t now = now_micros();
    must("dhcp", iface_dhcp_poll(client, host, now, &event));
    if (event == IFACE_DHCP_NOTHING) return;
    must("lease", iface_dhcp_apply(client, host));
    if (iface_dhcp_lease(client, &lease) == IFACE_OK) {
        print_lease(&lease, now);
    } else {
        puts("no lease");
        fflush(stdout);
    }
}

int main(int argc, char **argv) {
    if (argc != 3 && argc != 4) {
        fprintf(stderr, "usage: dhcp_host DEVICE SECONDS [ADDRESS]\n");
        return 2;
    }
    unsigned seconds = (unsigned)number_of(argv[2], 1, 1e9);
    int tap = open_tap(argv[1]);
    await_link(argv[1]);
    iface host = IFACE_NONE;
    iface_dhcp client = IFACE_DHCP_NONE;
    struct iface_config config;
    struct iface_address known = IFACE_ANY;
    if (argc == 4) known = address_of(argv[3]);
    iface_config_init(&config);
    config.seed = (uint64_t)now_micros(), config.hardware_address[0] = 2, config.hardware_address[5] = 1;
    must("host", iface_new(&host, &config));
    must("client", iface_dhcp_new(&client, &host, config.seed ^ (uint64_t)getpid() << 32, &known));
    signal(SIGTERM, on_signal);
    signal(SIGINT, on_signal);
    signal(SIGALRM, on_signal);
    alarm(seconds);
    while (!is_over) {
        int64_t at, leased_at;
        lease_address(&client, &host);
        send_all(&host, tap, &at);
        must("dhcp", iface_dhcp_poll_at(&client, &leased_at));
        sleep_until(tap, at < leased_at ? at : leased_at);
        for (int burst = 0; burst < 64 && take_frame(&host, tap); burst++) {
            lease_address(&client, &host);
            send_all(&host, tap, &at);
        }
    }
    must("free", iface_dhcp_free(&client, &host));
    must("free", iface_free(&host));
    return 0;
}
