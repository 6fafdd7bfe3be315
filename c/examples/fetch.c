/* A client of HTTP, on a TAP device of Linux, over either family: it prints the page at an address (RFC 9112).
 *
 *   fetch DEVICE OWN/PREFIX http://ADDRESS:PORT/PATH
 *
 *   fetch tap0 192.168.69.4/24 http://192.168.69.100:8000/index.html
 *   fetch tap0 fd69::4/64 http://[fd69::100]:8000/
 *
 * It fails unless the whole page came, with status 200.
 */
#include "page.h"

int main(int argc, char **argv) {
    if (argc != 4) {
        fprintf(stderr, "usage: fetch DEVICE OWN/PREFIX http://ADDRESS:PORT/PATH\n");
        return 2;
    }
    struct iface_cidr own = cidr_of(argv[2]);
    struct url page = url_of(argv[3]);
    struct iface_endpoint peer = {address_of(page.host), page.port};
    struct iface_config config;
    iface host = IFACE_NONE;
    iface_streams tcp = IFACE_STREAMS_NONE;
    struct fetch f;
    int tap = open_tap(argv[1]);
    await_link(argv[1]);
    iface_config_init(&config);
    config.seed = (uint64_t)now_micros(), config.hardware_address[0] = 2, config.hardware_address[5] = 4;
    must("host", iface_new(&host, &config)), must(argv[2], iface_add_address(&host, &own.address, own.prefix_len));
    make_streams(&tcp, &host, 1, 65535);
    start_fetch(&tcp, &host, &f, &peer);
    while (go_on(&tcp, &f, &page)) take_turn(&host, &tcp, tap, IFACE_NEVER);
    int is_whole = end_fetch(&tcp, &f);
    must("free", iface_streams_free(&tcp, &host)), must("free", iface_free(&host));
    return !is_whole;
}
