/* lwIP for ../path_speed.sh, as ../path_host.c is this library: at 192.168.69.7 it throws away at port 9 what comes (RFC 863), and at
 * port 19 it sends octets without end, too (RFC 864). Frames are at descriptor 3, one a read and a write, as ../relay.c has them. */
#include "lwip/etharp.h"
#include "lwip/init.h"
#include "lwip/netif.h"
#include "lwip/tcp.h"
#include "lwip/timeouts.h"
#include "netif/ethernet.h"

#include <poll.h>
#include <time.h>
#include <unistd.h>

enum { FRAMES = 3, BURST = 64, DISCARD = 9, GENERATOR = 19 };

static struct netif netif;

u32_t sys_now(void) {
    struct timespec t;
    clock_gettime(CLOCK_MONOTONIC, &t);
    return (u32_t)(t.tv_sec * 1000 + t.tv_nsec / 1000000);
}

/* A frame that the socket doesn't take is lost. */
static err_t send_frame(struct netif *from, struct pbuf *p) {
    static u8_t frame[2048];
    u16_t length = pbuf_copy_partial(p, frame, sizeof frame, 0);
    (void)from;
    return write(FRAMES, frame, length) == length ? ERR_OK : ERR_IF;
}

static err_t set_up(struct netif *n) {
    n->mtu = 1500, n->hwaddr_len = 6, n->hwaddr[0] = 2, n->hwaddr[5] = 7;
    n->flags = NETIF_FLAG_BROADCAST | NETIF_FLAG_ETHARP | NETIF_FLAG_ETHERNET | NETIF_FLAG_LINK_UP;
    n->output = etharp_output, n->linkoutput = send_frame;
    return ERR_OK;
}

/* Sends as much as there is room for. */
static err_t go_on(void *unset, struct tcp_pcb *pcb) {
    static const u8_t octets[16384];
    (void)unset;
    while (tcp_sndbuf(pcb) > 0) {
        u16_t length = (u16_t)LWIP_MIN(tcp_sndbuf(pcb), sizeof octets);
        if (tcp_write(pcb, octets, length, TCP_WRITE_FLAG_COPY) != ERR_OK) break;
    }
    return tcp_output(pcb);
}

static err_t on_sent(void *unset, struct tcp_pcb *pcb, u16_t length) {
    (void)length;
    return go_on(unset, pcb);
}

static err_t on_octets(void *unset, struct tcp_pcb *pcb, struct pbuf *p, err_t error) {
    (void)unset, (void)error;
    if (!p) {
        tcp_abort(pcb);
        return ERR_ABRT;
    }
    tcp_recved(pcb, p->tot_len);
    pbuf_free(p);
    return ERR_OK;
}

static err_t on_discard(void *unset, struct tcp_pcb *pcb, err_t error) {
    (void)unset, (void)error;
    tcp_recv(pcb, on_octets);
    return ERR_OK;
}

static err_t on_generator(void *unset, struct tcp_pcb *pcb, err_t error) {
    (void)error;
    tcp_recv(pcb, on_octets), tcp_sent(pcb, on_sent), tcp_poll(pcb, go_on, 1);
    return go_on(unset, pcb);
}

static void listen_at(u16_t port, tcp_accept_fn accept) {
    struct tcp_pcb *pcb = tcp_new();
    tcp_bind(pcb, IP_ANY_TYPE, port);
    tcp_accept(tcp_listen_with_backlog(pcb, 4), accept);
}

static void start(void) {
    ip4_addr_t own, mask, none;
    lwip_init();
    IP4_ADDR(&own, 192, 168, 69, 7), IP4_ADDR(&mask, 255, 255, 255, 0), IP4_ADDR(&none, 0, 0, 0, 0);
    netif_add(&netif, &own, &mask, &none, NULL, set_up, ethernet_input);
    netif_set_default(&netif);
    netif_set_up(&netif);
    listen_at(DISCARD, on_discard);
    listen_at(GENERATOR, on_generator);
}

/* Takes a frame, if there is one. Whether there was one. */
static int take_frame(void) {
    static u8_t frame[2048];
    ssize_t length = read(FRAMES, frame, sizeof frame);
    struct pbuf *p = length > 0 ? pbuf_alloc(PBUF_RAW, (u16_t)length, PBUF_POOL) : NULL;
    if (!p) return length > 0;
    pbuf_take(p, frame, (u16_t)length);
    if (netif.input(p, &netif) != ERR_OK) pbuf_free(p);
    return 1;
}

int main(void) {
    struct pollfd wait = {.fd = FRAMES, .events = POLLIN};
    start();
    while (poll(&wait, 1, (int)sys_timeouts_sleeptime()) >= 0) {
        for (int burst = 0; burst < BURST && take_frame(); burst++) {}
        sys_check_timeouts();
    }
    return 0;
}
