/* lwIP behind tcp_host.h: its raw API, a frame copied into a pbuf of its pool and out of it, and octets copied on both ways,
 * as a program with a buffer of its own does. */
#include "tcp_host.h"

#include "lwip/etharp.h"
#include "lwip/init.h"
#include "lwip/netif.h"
#include "lwip/tcp.h"
#include "lwip/timeouts.h"
#include "netif/ethernet.h"

static struct connection {
    struct tcp_pcb *pcb;
    struct pbuf *arrived;
} connections[MOST_CONNECTIONS];

static struct netif netif;
static u32_t millis;
static int unaccepted = -1, unused;

u32_t sys_now(void) {
    return millis;
}

static err_t send_frame(struct netif *from, struct pbuf *p) {
    static u8_t frame[1600];
    (void)from;
    bench_sent(frame, pbuf_copy_partial(p, frame, sizeof frame, 0));
    return ERR_OK;
}

static err_t set_up(struct netif *n) {
    n->mtu = 1500, n->hwaddr_len = 6, n->hwaddr[0] = 2, n->hwaddr[5] = 1;
    n->flags = NETIF_FLAG_BROADCAST | NETIF_FLAG_ETHARP | NETIF_FLAG_ETHERNET | NETIF_FLAG_LINK_UP;
    n->output = etharp_output, n->linkoutput = send_frame;
    return ERR_OK;
}

static err_t on_octets(void *which, struct tcp_pcb *pcb, struct pbuf *p, err_t error) {
    struct connection *c = which;
    (void)pcb, (void)error;
    if (p && c->arrived) pbuf_cat(c->arrived, p);
    else if (p) c->arrived = p;
    return ERR_OK;
}

static err_t on_connection(void *unset, struct tcp_pcb *pcb, err_t error) {
    (void)unset;
    if (error != ERR_OK) return error;
    while (unused < MOST_CONNECTIONS && connections[unused].pcb) unused++;
    if (unused == MOST_CONNECTIONS) return ERR_MEM;
    connections[unused].pcb = pcb;
    tcp_arg(pcb, &connections[unused]);
    tcp_recv(pcb, on_octets);
    unaccepted = unused;
    return ERR_OK;
}

void host_new(void) {
    ip4_addr_t own, mask, none;
    lwip_init();
    IP4_ADDR(&own, 192, 168, 69, 1), IP4_ADDR(&mask, 255, 255, 255, 0), IP4_ADDR(&none, 0, 0, 0, 0);
    netif_add(&netif, &own, &mask, &none, NULL, set_up, ethernet_input);
    netif_set_default(&netif);
    netif_set_up(&netif);
    struct tcp_pcb *pcb = tcp_new_ip_type(IPADDR_TYPE_V4);
    tcp_bind(pcb, IP4_ADDR_ANY, 7);
    tcp_accept(tcp_listen_with_backlog(pcb, 255), on_connection);
}

void host_at(int64_t now) {
    millis = (u32_t)(now / 1000);
}

void host_take(const uint8_t *frame, size_t length) {
    struct pbuf *p = pbuf_alloc(PBUF_RAW, (u16_t)length, PBUF_POOL);
    if (!p) return;
    pbuf_take(p, frame, (u16_t)length);
    if (netif.input(p, &netif) != ERR_OK) pbuf_free(p);
}

void host_poll(void) {
    sys_check_timeouts();
}

int host_accept(void) {
    int c = unaccepted;
    unaccepted = -1;
    return c;
}

size_t host_read(int connection, uint8_t *octets, size_t room) {
    struct connection *c = &connections[connection];
    if (!c->arrived) return 0;
    u16_t length = pbuf_copy_partial(c->arrived, octets, (u16_t)room, 0);
    c->arrived = length < c->arrived->tot_len ? pbuf_free_header(c->arrived, length) : (pbuf_free(c->arrived), NULL);
    tcp_recved(c->pcb, length);
    return length;
}

size_t host_write(int connection, const uint8_t *octets, size_t length) {
    struct tcp_pcb *pcb = connections[connection].pcb;
    if (tcp_write(pcb, octets, (u16_t)length, TCP_WRITE_FLAG_COPY) != ERR_OK) return 0;
    tcp_output(pcb);
    return length;
}

void host_close(int connection) {
    struct connection *c = &connections[connection];
    tcp_arg(c->pcb, NULL);
    tcp_recv(c->pcb, NULL);
    tcp_close(c->pcb);
    c->pcb = NULL;
    if (connection < unused) unused = connection;
}
