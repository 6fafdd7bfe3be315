/* A host that sends back each datagram that comes to its port 7, and answers ping, over lwIP. It is compiled and
 * linked, to count its code, and not run: it has no device. */
#include "lwip/init.h"
#include "lwip/netif.h"
#include "lwip/timeouts.h"
#include "lwip/udp.h"
#include "netif/ethernet.h"
#include "lwip/etharp.h"
#include "lwip/ethip6.h"

u32_t sys_now(void) { return 0; }

static err_t send_frame(struct netif *netif, struct pbuf *p) {
    (void)netif, (void)p;
    return ERR_OK;
}

static err_t set_up(struct netif *netif) {
    netif->mtu = 1500, netif->hwaddr_len = 6;
    netif->flags = NETIF_FLAG_BROADCAST | NETIF_FLAG_ETHARP | NETIF_FLAG_ETHERNET | NETIF_FLAG_IGMP | NETIF_FLAG_MLD6
                 | NETIF_FLAG_LINK_UP;
    netif->output = etharp_output, netif->linkoutput = send_frame;
#if LWIP_IPV6
    netif->output_ip6 = ethip6_output;
#endif
    return ERR_OK;
}

static void echo(void *arg, struct udp_pcb *pcb, struct pbuf *p, const ip_addr_t *from, u16_t port) {
    (void)arg;
    udp_sendto(pcb, p, from, port);
    pbuf_free(p);
}

void start(void) {
    static struct netif netif;
    static u8_t octets[1514];
    ip4_addr_t own, mask, gateway;
    lwip_init();
    IP4_ADDR(&own, 192, 168, 69, 1), IP4_ADDR(&mask, 255, 255, 255, 0), IP4_ADDR(&gateway, 192, 168, 69, 2);
    netif_add(&netif, &own, &mask, &gateway, NULL, set_up, ethernet_input);
#if LWIP_IPV6
    netif_create_ip6_linklocal_address(&netif, 1);
    netif_set_ip6_autoconfig_enabled(&netif, 1);
#endif
    netif_set_default(&netif);
    netif_set_up(&netif);
    struct udp_pcb *pcb = udp_new_ip_type(IPADDR_TYPE_ANY);
    udp_bind(pcb, IP_ANY_TYPE, 7);
    udp_recv(pcb, echo, NULL);
    for (;;) {
        struct pbuf *p = pbuf_alloc(PBUF_RAW, sizeof octets, PBUF_RAM);
        if (p && (pbuf_take(p, octets, sizeof octets), netif.input(p, &netif)) != ERR_OK) pbuf_free(p);
        sys_check_timeouts();
    }
}
