/* A small service whole, on a TAP device of Linux: a host with nothing but a hardware address leases an address by DHCP, asks for a
 * name by DNS, prints the page of HTTP at that name, and has a page of its own at port 80.
 *
 *   small_service DEVICE SECONDS http://NAME:PORT/PATH [SERVER]
 *
 *   small_service tap0 60 http://www.small.example:8000/index.html
 *
 * Names are asked of the servers that the lease tells. With SERVER, an IPv6 address, they are asked of that one, and the host takes
 * its own address from a router (SLAAC, RFC 4862). It ends by itself after so many seconds, or by SIGTERM, and fails unless the
 * page came.
 */
#include "page.h"
#include "service.h"

enum phase { WITHOUT_ADDRESS, ASKING, FETCHING, FETCHED, FAILED };

struct small {
    iface host;
    iface_streams tcp;
    iface_dhcp client;
    iface_dns names;
    struct iface_address servers[IFACE_DNS_SERVERS];
    int is_slaac;
    enum phase phase;
    struct url page;
    size_t query;
    struct fetch fetch;
};

static void make(struct small *s) {
    static const iface_dns no_names = IFACE_DNS_NONE;
    static const iface_dhcp no_client = IFACE_DHCP_NONE;
    struct iface_config config;
    struct iface_address link_local, none = IFACE_ANY;
    uint64_t key[2];
    s->names = no_names, s->client = no_client;
    iface_config_init(&config);
    config.seed = (uint64_t)now_micros(), config.hardware_address[0] = 2, config.hardware_address[5] = 5;
    config.slaac = (uint8_t)s->is_slaac, config.sockets = 16;
    must("host", iface_new(&s->host, &config));
    must("link-local address", iface_link_local(config.hardware_address, &link_local));
    must("link-local address", iface_add_address(&s->host, &link_local, 64));
    make_streams(&s->tcp, &s->host, PLACES, ROOM);
    draw(key, sizeof key), must("names", iface_dns_new(&s->names, 1, key, s->servers));
    draw(key, sizeof key);
    if (!s->is_slaac) must("client", iface_dhcp_new(&s->client, &s->host, key[0], &none));
}

/* Lets the client do what is due, and gives the host what was leased, and the servers of names. */
static void lease(struct small *s) {
    struct iface_lease lease;
    uint32_t event;
    must("dhcp", iface_dhcp_poll(&s->client, &s->host, now_micros(), &event));
    if (event == IFACE_DHCP_NOTHING) return;
    must("lease", iface_dhcp_apply(&s->client, &s->host));
    if (iface_dhcp_lease(&s->client, &lease) == IFACE_OK) must("servers", iface_dns_servers(&s->names, lease.dns_servers));
}

/* Asks for the name as soon as there is an address that isn't link-local. */
static void ask_for_name(struct small *s) {
    struct iface_address own;
    uint8_t prefix;
    uint32_t place = 0;
    do {
        if (iface_address_at(&s->host, place++, &own, &prefix) != IFACE_OK) return;
    } while (own.version == 6 && own.octets[0] == 0xfe && (own.octets[1] & 0xc0) == 0x80);
    printf("the host is %s/%u\n", text_of(&own), prefix), fflush(stdout);
    must(s->page.host, iface_dns_start(&s->names, &s->host, now_micros(), s->page.host, strlen(s->page.host),
                                       own.version == 6 ? IFACE_DNS_AAAA : IFACE_DNS_A, &s->query));
    s->phase = ASKING;
}

/* Connects to the first address of the name, once that is known. */
static void connect_to_name(struct small *s) {
    static const char *const reasons[] = {"", "", "there is no such name", "the server failed", "the answer is truncated",
                                          "the name has no address", "the name has too many aliases", "no server answered"};
    struct iface_dns_answer answer;
    must("names", iface_dns_result(&s->names, s->query, &answer));
    if (answer.state == IFACE_DNS_PENDING) return;
    must("names", iface_dns_cancel(&s->names, &s->host, s->query));
    if (answer.state != IFACE_DNS_FOUND && answer.state != IFACE_DNS_FOUND_TRUNCATED) {
        fprintf(stderr, "%s: %s\n", s->page.host, reasons[answer.state]);
        s->phase = FAILED;
        return;
    }
    struct iface_endpoint peer = {answer.addresses[0], s->page.port};
    printf("%s is %s\n", s->page.host, text_of(&peer.address)), fflush(stdout);
    start_fetch(&s->tcp, &s->host, &s->fetch, &peer);
    s->phase = FETCHING;
}

/* Goes on with what comes first: the address, the name, the page. When something of it is due next. */
static int64_t go_on_with(struct small *s) {
    int64_t leased_at = IFACE_NEVER, asked_at;
    if (!s->is_slaac) lease(s);
    must("names", iface_dns_poll(&s->names, &s->host, now_micros()));
    if (s->phase == WITHOUT_ADDRESS) ask_for_name(s);
    if (s->phase == ASKING) connect_to_name(s);
    if (s->phase == FETCHING && !go_on(&s->tcp, &s->fetch, &s->page)) s->phase = end_fetch(&s->tcp, &s->fetch) ? FETCHED : FAILED;
    if (!s->is_slaac) must("dhcp", iface_dhcp_poll_at(&s->client, &leased_at));
    must("names", iface_dns_poll_at(&s->names, &asked_at));
    return leased_at < asked_at ? leased_at : asked_at;
}

static int serve(iface_streams *tcp, const struct iface_stream *stream) {
    return serve_page(tcp, stream, "HTTP/1.1 200 OK\r\nContent-Length: 22\r\nConnection: close\r\n\r\n<h1>A small one.</h1>\r\n");
}

int main(int argc, char **argv) {
    struct small s = {.host = IFACE_NONE, .tcp = IFACE_STREAMS_NONE, .is_slaac = argc == 5};
    struct iface_endpoint local = {IFACE_ANY, 80};
    size_t listener;
    if (argc != 4 && argc != 5) {
        fprintf(stderr, "usage: small_service DEVICE SECONDS http://NAME:PORT/PATH [SERVER]\n");
        return 2;
    }
    s.page = url_of(argv[3]);
    if (s.is_slaac) s.servers[0] = address_of(argv[4]);
    unsigned seconds = (unsigned)number_of(argv[2], 1, 1e9);
    int tap = open_tap(argv[1]);
    await_link(argv[1]);
    make(&s);
    must("listen", iface_stream_listen(&s.tcp, &local, 16, &listener));
    signal(SIGTERM, on_signal), signal(SIGINT, on_signal), signal(SIGALRM, on_signal);
    alarm(seconds);
    while (!is_over) {
        int64_t at = go_on_with(&s);
        serve_all(&s.tcp, listener, serve);
        take_turn(&s.host, &s.tcp, tap, at);
    }
    if (!s.is_slaac) must("free", iface_dhcp_free(&s.client, &s.host));
    must("free", iface_dns_free(&s.names, &s.host)), must("free", iface_streams_free(&s.tcp, &s.host)), must("free", iface_free(&s.host));
    return s.phase != FETCHED;
}
