/* lwIP as a stand-in for ../tcp.sh: it sends back at port 7 what comes, and has a page at port 80. Frames are lines of hex on
 * standard input and output, with moments, as ../relay.c has them. It is at 192.168.69.7 and fd69::7. */
#include "lwip/ethip6.h"
#include "lwip/etharp.h"
#include "lwip/init.h"
#include "lwip/nd6.h"
#include "lwip/netif.h"
#include "lwip/tcp.h"
#include "lwip/timeouts.h"
#include "netif/ethernet.h"

#include <stdio.h>
#include <stdlib.h>
#include <string.h>

struct echo {
    struct pbuf *arrived; /* and not sent back yet: at most a window, 65,535 octets, as a pbuf has room for */
    int has_ended;
};

static struct netif netif;
static long long micros;

u32_t sys_now(void) {
    return (u32_t)(micros / 1000);
}

static err_t send_frame(struct netif *from, struct pbuf *p) {
    static const char digits[] = "0123456789abcdef";
    static u8_t frame[2048];
    u16_t length = pbuf_copy_partial(p, frame, sizeof frame, 0);
    (void)from;
    for (u16_t i = 0; i < length; i++) putchar(digits[frame[i] >> 4]), putchar(digits[frame[i] & 15]);
    putchar('\n');
    return ERR_OK;
}

static err_t set_up(struct netif *n) {
    n->mtu = 1500, n->hwaddr_len = 6, n->hwaddr[0] = 2, n->hwaddr[5] = 7;
    n->flags = NETIF_FLAG_BROADCAST | NETIF_FLAG_ETHARP | NETIF_FLAG_ETHERNET | NETIF_FLAG_MLD6 | NETIF_FLAG_LINK_UP;
    n->output = etharp_output, n->output_ip6 = ethip6_output, n->linkoutput = send_frame;
    return ERR_OK;
}

/* Sends back what there is room for, and then ends if the peer has. */
static err_t go_on(struct echo *e, struct tcp_pcb *pcb) {
    while (e->arrived && tcp_sndbuf(pcb) > 0) {
        u16_t length = LWIP_MIN(e->arrived->len, (u16_t)LWIP_MIN(tcp_sndbuf(pcb), 65535));
        if (tcp_write(pcb, e->arrived->payload, length, TCP_WRITE_FLAG_COPY) != ERR_OK) break;
        e->arrived = length < e->arrived->tot_len ? pbuf_free_header(e->arrived, length) : (pbuf_free(e->arrived), NULL);
        tcp_recved(pcb, length);
    }
    tcp_output(pcb);
    if (e->arrived || !e->has_ended) return ERR_OK;
    tcp_arg(pcb, NULL), tcp_recv(pcb, NULL), tcp_sent(pcb, NULL), tcp_poll(pcb, NULL, 0), tcp_err(pcb, NULL);
    free(e);
    return tcp_close(pcb);
}

static err_t on_octets(void *which, struct tcp_pcb *pcb, struct pbuf *p, err_t error) {
    struct echo *e = which;
    (void)error;
    if (!p) e->has_ended = 1;
    else if (e->arrived) pbuf_cat(e->arrived, p);
    else e->arrived = p;
    return go_on(e, pcb);
}

static err_t on_sent(void *which, struct tcp_pcb *pcb, u16_t length) {
    (void)length;
    return go_on(which, pcb);
}

static err_t on_time(void *which, struct tcp_pcb *pcb) {
    return go_on(which, pcb);
}

static void on_error(void *which, err_t error) {
    struct echo *e = which;
    (void)error;
    if (e->arrived) pbuf_free(e->arrived);
    free(e);
}

static err_t on_echo(void *unset, struct tcp_pcb *pcb, err_t error) {
    struct echo *e = error == ERR_OK ? calloc(1, sizeof *e) : NULL;
    (void)unset;
    if (!e) return ERR_MEM;
    tcp_arg(pcb, e), tcp_recv(pcb, on_octets), tcp_sent(pcb, on_sent), tcp_poll(pcb, on_time, 1), tcp_err(pcb, on_error);
    return ERR_OK;
}

/* A request is answered by the page whatever it says, and the connection ended. */
static err_t on_request(void *unset, struct tcp_pcb *pcb, struct pbuf *p, err_t error) {
    static char page[4200];
    (void)unset, (void)error;
    if (!p) return tcp_close(pcb);
    int length = snprintf(page, sizeof page, "HTTP/1.1 200 OK\r\nConnection: close\r\nContent-Length: 4000\r\n\r\n%04000d", 0);
    tcp_recved(pcb, p->tot_len);
    pbuf_free(p);
    tcp_recv(pcb, NULL);
    tcp_write(pcb, page, (u16_t)length, TCP_WRITE_FLAG_COPY);
    return tcp_close(pcb);
}

static err_t on_client(void *unset, struct tcp_pcb *pcb, err_t error) {
    (void)unset, (void)error;
    tcp_recv(pcb, on_request);
    return ERR_OK;
}

static void listen_at(u16_t port, tcp_accept_fn accept) {
    struct tcp_pcb *pcb = tcp_new_ip_type(IPADDR_TYPE_ANY);
    tcp_bind(pcb, IP_ANY_TYPE, port);
    tcp_accept(tcp_listen_with_backlog(pcb, 255), accept);
}

static void start(void) {
    ip4_addr_t own, mask, none;
    ip6_addr_t own_6;
    s8_t index;
    lwip_init();
    IP4_ADDR(&own, 192, 168, 69, 7), IP4_ADDR(&mask, 255, 255, 255, 0), IP4_ADDR(&none, 0, 0, 0, 0);
    netif_add(&netif, &own, &mask, &none, NULL, set_up, ethernet_input);
    netif_create_ip6_linklocal_address(&netif, 1);
    ip6addr_aton("fd69::7", &own_6);
    netif_add_ip6_address(&netif, &own_6, &index);
    netif_ip6_addr_set_state(&netif, 0, IP6_ADDR_PREFERRED);
    netif_ip6_addr_set_state(&netif, index, IP6_ADDR_PREFERRED);
    netif_set_default(&netif);
    netif_set_up(&netif);
    listen_at(7, on_echo);
    listen_at(80, on_client);
}

static int digit(char c) {
    return c >= '0' && c <= '9' ? c - '0' : c >= 'a' && c <= 'f' ? c - 'a' + 10 : -1;
}

static void take_frame(const char *hex) {
    static u8_t frame[2048];
    unsigned length = 0;
    for (; length < sizeof frame && digit(hex[0]) >= 0 && digit(hex[1]) >= 0; hex += 2)
        frame[length++] = (u8_t)(digit(hex[0]) << 4 | digit(hex[1]));
    struct pbuf *p = length > 0 ? pbuf_alloc(PBUF_RAW, (u16_t)length, PBUF_POOL) : NULL;
    if (!p) return;
    pbuf_take(p, frame, (u16_t)length);
    if (netif.input(p, &netif) != ERR_OK) pbuf_free(p);
}

int main(void) {
    static char line[8192];
    start();
    do {
        char *frame = line;
        if (*line) micros = strtoll(line, &frame, 10);
        if (*frame == ' ') take_frame(frame + 1);
        sys_check_timeouts();
        printf("at %lld\n", micros + (long long)sys_timeouts_sleeptime() * 1000);
        fflush(stdout);
    } while (fgets(line, sizeof line, stdin));
    return 0;
}
