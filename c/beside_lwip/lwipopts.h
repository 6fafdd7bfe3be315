/* lwIP for the same as examples/freestanding.c: UDP, raw and ICMP over both families, on Ethernet, with fragments,
 * groups and addresses from routers, without threads, TCP or statistics. With -DLWIP_TCP=1 it is that of tcp.sh: TCP with
 * windows that stop nothing that is measured, and memory for 10,016 connections. */
#define NO_SYS 1
#define LWIP_TIMERS 1
#define SYS_LIGHTWEIGHT_PROT 0
#define LWIP_NETCONN 0
#define LWIP_SOCKET 0
#ifndef LWIP_TCP
#define LWIP_TCP 0
#endif
#define LWIP_UDP 1
#define LWIP_RAW 1
#define LWIP_ICMP 1
#define LWIP_IGMP 1
#ifndef LWIP_IPV6
#define LWIP_IPV6 1
#endif
#define LWIP_ICMP6 LWIP_IPV6
#define LWIP_IPV6_MLD LWIP_IPV6
#define LWIP_IPV6_AUTOCONFIG LWIP_IPV6
#define LWIP_IPV6_FRAG 0
#define LWIP_IPV6_REASS 0
#define IP_REASSEMBLY 1
#define IP_FRAG 1
#define LWIP_STATS 0
#define LWIP_NOASSERT 1
#define MEM_ALIGNMENT 8
#if LWIP_TCP
#define MEM_SIZE 16777216
#define MEMP_NUM_TCP_PCB 10016
#define MEMP_NUM_TCP_SEG 4096
#define PBUF_POOL_SIZE 2048
#define TCP_MSS 1460
#define LWIP_WND_SCALE 1
#ifndef TCP_WND
#define TCP_WND 262144
#endif
#ifndef TCP_SND_BUF
#define TCP_SND_BUF 262144
#define TCP_SND_QUEUELEN 1024
#define TCP_RCV_SCALE 3
#else
#define TCP_SND_QUEUELEN 4096
#define TCP_RCV_SCALE 6
#endif
#define TCP_SNDLOWAT 32768
#define TCP_LISTEN_BACKLOG 1
#define LWIP_TCP_SACK_OUT 1
#else
#define MEM_SIZE 65536
#endif
#define LWIP_CHKSUM_ALGORITHM 3
