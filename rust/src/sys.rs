//! `c/iface.h`, declared: made by `make_sys.py`, with the comments of the header.
//!
//! Calling any of it is `unsafe`: the header says what the caller keeps. [`Host`](crate::Host) keeps it.
//!
//! Sum of the header: 0xc6bf25af2038b6b5
#![allow(non_camel_case_types)]

use core::ffi::{c_char, c_void};

/// the call is done
pub const IFACE_OK: u32 = 0;
/// the handle owns no host
pub const IFACE_NO_HOST: u32 = 1;
/// `iface_new`: the handle owns a host already
pub const IFACE_HAS_HOST: u32 = 2;
/// a version of IP that is neither 4 nor 6, a prefix longer than the address, a medium, a checksum, a control of a segment, a hop limit of 0
pub const IFACE_BAD_ARGUMENT: u32 = 3;
/// malloc or realloc refused
pub const IFACE_NO_MEMORY: u32 = 4;
/// frame_len: not 590 to 1514 on Ethernet, 576 to 1514 without hardware addresses
pub const IFACE_BAD_MTU: u32 = 5;
/// a hardware address, an own address or a server that can't be one
pub const IFACE_NOT_UNICAST: u32 = 6;
/// a moment below 0 or above 2^62, that of a host's start, a route's end and a hold too
pub const IFACE_BAD_MOMENT: u32 = 7;
/// a destination that is unspecified, a group that is none, a socket's own that is no host's
pub const IFACE_BAD_ADDRESS: u32 = 8;
/// no such address, route or query, no own address; the medium has no hardware addresses
pub const IFACE_NOT_THERE: u32 = 9;
/// there is no room for another address, route or group, or for so many addresses; all sockets are open, or as many queries are there as may be
pub const IFACE_TABLE_FULL: u32 = 10;
/// no socket of this kind is open by this number; no connection has this name
pub const IFACE_NO_SOCKET: u32 = 11;
/// a port that is 0
pub const IFACE_BAD_PORT: u32 = 12;
/// a packet longer than is ever sent; too many codes of options, too long a name
pub const IFACE_TOO_LONG: u32 = 13;
/// the socket's queue has no room for the packet: `iface_next` makes some, unless the packet is longer than the whole queue
pub const IFACE_QUEUE_FULL: u32 = 14;
/// no packet came; the socket doesn't wait; no packet was given up; no connection waits; no lease, or no such option of it
pub const IFACE_EMPTY: u32 = 15;
/// the room for a frame is shorter than `IFACE_FRAME_ROOM`, that for a packet than the packet
pub const IFACE_NO_ROOM: u32 = 16;
/// reassembly_timeout: 0, or longer than a day
pub const IFACE_BAD_TIMEOUT: u32 = 17;
/// `iface_new`: the library isn't of this header's version
pub const IFACE_BAD_VERSION: u32 = 18;
/// the handle owns no client of DHCP, or of DNS
pub const IFACE_NO_CLIENT: u32 = 19;
/// `iface_dhcp_new`, `iface_dns_new`: the handle owns a client already
pub const IFACE_HAS_CLIENT: u32 = 20;
/// the handle owns no connections of TCP
pub const IFACE_NO_STREAMS: u32 = 21;
/// `iface_streams_new`: the handle owns connections already
pub const IFACE_HAS_STREAMS: u32 = 22;
/// `iface_stream_connect`: a connection has these ends
pub const IFACE_IN_USE: u32 = 23;
/// `iface_dns_start`: the text is no name
pub const IFACE_BAD_NAME: u32 = 24;
/// `iface_dns_start`: the client knows no server
pub const IFACE_NO_SERVER: u32 = 25;
/// no network and no route of the host has the destination
pub const IFACE_NO_ROUTE: u32 = 26;

/// `iface_control`.
pub const IFACE_TCP_DATA: u8 = 0;
/// `iface_control`.
pub const IFACE_TCP_PSH: u8 = 1;
/// `iface_control`.
pub const IFACE_TCP_SYN: u8 = 2;
/// `iface_control`.
pub const IFACE_TCP_FIN: u8 = 3;
/// `iface_control`.
pub const IFACE_TCP_RST: u8 = 4;

/// `iface_medium`.
pub const IFACE_ETHERNET: u8 = 0;
/// `iface_medium`.
pub const IFACE_IP: u8 = 1;

/// verified on receipt, and computed when sending
pub const IFACE_BOTH: u8 = 0;
/// verified alone: what is sent has 0 in its place
pub const IFACE_VERIFIED: u8 = 1;
/// computed alone
pub const IFACE_COMPUTED: u8 = 2;
/// neither
pub const IFACE_NEITHER: u8 = 3;

/// nothing, since the last call
pub const IFACE_DHCP_NOTHING: u8 = 0;
/// there is a lease: a new one, or one that was renewed
pub const IFACE_DHCP_CONFIGURED: u8 = 1;
/// there is none any more, or it was declined: its address must not be used
pub const IFACE_DHCP_DECONFIGURED: u8 = 2;

/// its IPv4 addresses
pub const IFACE_DNS_A: u32 = 1;
/// its IPv6 addresses
pub const IFACE_DNS_AAAA: u32 = 28;

/// it waits for an answer
pub const IFACE_DNS_PENDING: u32 = 0;
/// the name has addresses
pub const IFACE_DNS_FOUND: u32 = 1;
/// there is no such name (RCODE 3)
pub const IFACE_DNS_NO_SUCH_NAME: u32 = 2;
/// all servers failed, or refused: any other RCODE but 0
pub const IFACE_DNS_SERVER_FAILURE: u32 = 3;
/// the answer didn't fit in one message (TC), and what did has no address
pub const IFACE_DNS_TRUNCATED: u32 = 4;
/// the name has no address of the type that was asked for
pub const IFACE_DNS_NO_ADDRESS: u32 = 5;
/// the name is an alias of an alias, and so on more than eight times
pub const IFACE_DNS_TOO_MANY_ALIASES: u32 = 6;
/// no server answered
pub const IFACE_DNS_TIMED_OUT: u32 = 7;
/// the name has addresses, in an answer that didn't fit in one message (TC): it may have others
pub const IFACE_DNS_FOUND_TRUNCATED: u32 = 8;

/// it is gone; what came before can still be read
pub const IFACE_CLOSED: u32 = 0;
/// no connection is ever in it: a listener is something else
pub const IFACE_LISTEN: u32 = 1;
/// `iface_stream_state`.
pub const IFACE_SYN_SENT: u32 = 2;
/// `iface_stream_state`.
pub const IFACE_SYN_RECEIVED: u32 = 3;
/// `iface_stream_state`.
pub const IFACE_ESTABLISHED: u32 = 4;
/// `iface_stream_state`.
pub const IFACE_FIN_WAIT_1: u32 = 5;
/// `iface_stream_state`.
pub const IFACE_FIN_WAIT_2: u32 = 6;
/// `iface_stream_state`.
pub const IFACE_CLOSE_WAIT: u32 = 7;
/// `iface_stream_state`.
pub const IFACE_CLOSING: u32 = 8;
/// `iface_stream_state`.
pub const IFACE_LAST_ACK: u32 = 9;
/// `iface_stream_state`.
pub const IFACE_TIME_WAIT: u32 = 10;

/// it didn't
pub const IFACE_NOT_CUT: u32 = 0;
/// the peer sent a reset
pub const IFACE_BY_PEER: u32 = 1;
/// the peer answered the SYN by a reset
pub const IFACE_REFUSED: u32 = 2;
/// what was sent stayed unacknowledged, or the peer didn't answer probes
pub const IFACE_TIMED_OUT: u32 = 3;
/// the program aborted, or the own address is gone
pub const IFACE_ABORTED: u32 = 4;
/// the peer can't be reached: its neighbour doesn't answer, or a message of ICMP says so while it is being opened, or one did after which nothing came until it timed out
pub const IFACE_UNREACHABLE: u32 = 5;

/// The room that `iface_receive` and `iface_next` need for a frame, in octets.
pub const IFACE_FRAME_ROOM: usize = 1514;
/// The last moment, in microseconds.
pub const IFACE_LAST_MOMENT: i64 = 1 << 62;
/// The instant that stands for none.
pub const IFACE_NEVER: i64 = i64::MAX;
/// How many servers of a client there are at most.
pub const IFACE_DNS_SERVERS: usize = 3;
/// How many addresses of a result there are at most.
pub const IFACE_DNS_ADDRESSES: usize = 4;
/// The version of the header.
pub const IFACE_VERSION: u32 = 0x000f0000;
/// Any address, for the end at which a socket listens.
pub const IFACE_ANY: iface_address = iface_address { version: 0, octets: [0; 16] };

/// A handle, which owns a host or none. Its fields are the library's.
#[repr(C)]
#[derive(Debug)]
pub struct iface {
    tag: u64,
    at: *mut c_void,
}

/// An address.
#[repr(C)]
#[derive(Clone, Copy, Debug)]
pub struct iface_address {
    /// 4 or 6
    pub version: u8,
    /// in the order of the network: the first 4, or all 16
    pub octets: [u8; 16],
}

/// One end of a datagram.
#[repr(C)]
#[derive(Clone, Copy, Debug)]
pub struct iface_endpoint {
    /// `address`.
    pub address: iface_address,
    /// in the order of the machine
    pub port: u16,
}

/// An own address with its network.
#[repr(C)]
#[derive(Clone, Copy, Debug)]
pub struct iface_cidr {
    /// `address`.
    pub address: iface_address,
    /// how many bits of it are the network's
    pub prefix_len: u8,
}

/// How much the two queues of a socket hold: so many packets, with so many octets together.
#[repr(C)]
#[derive(Clone, Copy, Debug)]
pub struct iface_rooms {
    /// of the queue for what comes
    pub received_packets: u32,
    /// `received_octets`.
    pub received_octets: u32,
    /// of the queue for what goes
    pub to_send_packets: u32,
    /// `to_send_octets`.
    pub to_send_octets: u32,
}

/// What waits in a queue of a socket, and what it holds at most.
#[repr(C)]
#[derive(Clone, Copy, Debug)]
pub struct iface_queue {
    /// how many wait
    pub packets: u32,
    /// how many they have together
    pub octets: u32,
    /// how many it holds at most
    pub most_packets: u32,
    /// how many they have together at most
    pub most_octets: u32,
    /// how many octets the first packet has, 0 where none waits
    pub first: u32,
}

/// A segment of TCP without its payload (RFC 9293, 3.1).
#[repr(C)]
#[derive(Clone, Copy, Debug)]
pub struct iface_segment {
    /// where it came from, or goes to
    pub remote: iface_endpoint,
    /// its sequence number
    pub seq: u32,
    /// its acknowledgement number, if it has one
    pub ack: u32,
    /// its window as in the header, not scaled
    pub window: u16,
    /// enum `iface_control`
    pub control: u8,
    /// not 0: it has an acknowledgement number
    pub has_ack: u8,
}

/// In which directions a host computes checksums, by protocol; the link does the others.
#[repr(C)]
#[derive(Clone, Copy, Debug)]
pub struct iface_checksums {
    /// of IPv4's headers: `IFACE_BOTH`, or another of enum `iface_checksum`
    pub ipv4: u8,
    /// `udp`.
    pub udp: u8,
    /// `tcp`.
    pub tcp: u8,
    /// `icmpv4`.
    pub icmpv4: u8,
    /// `icmpv6`.
    pub icmpv6: u8,
}

/// A rate: one in each interval, and so many at once.
#[repr(C)]
#[derive(Clone, Copy, Debug)]
pub struct iface_rate {
    /// in microseconds; 0 sets no bound
    pub interval: u32,
    /// `at_once`.
    pub at_once: u32,
}

/// The guard in front of a host on Ethernet: what it drops before the host sees it, what it leaves of what a frame changed, and which answers to strangers it holds back. Each rule has its switch; a rate is off by an interval of 0. A comment ends with what `iface_config_init` sets.
///
/// A neighbour is confirmed if its entry ends later than that of a stranger would who comes now. While fewer than half of the entries are confirmed, a neighbour's packet confirms it, and so does its answer to a request of the host. An entry that isn't confirmed gives way to others before one that is.
#[repr(C)]
#[derive(Clone, Copy, Debug)]
pub struct iface_guard {
    /// echo requests of either ICMP, and fragments of ICMP, that the host gets to see: 0 and 0
    pub echo_requests: iface_rate,
    /// errors of either ICMP (RFC 4443, 2.4). While a rate of these or of resets is used up, confirmed neighbours have as many: 10,000 and 10
    pub errors: iface_rate,
    /// resets of TCP, likewise: 10,000 and 10
    pub resets: iface_rate,
    /// how long a neighbour is known that isn't confirmed, in microseconds; 0: as long as any other, which is 60 s: 20,000,000
    pub strangers_stay: u32,
    /// 0: there is no guard, as without hardware addresses: 1
    pub on: u8,
    /// not 0: drops what claims an own address for another hardware address than the own one (RFC 5227, 2.4), or comes from one by another: 1
    pub own_addresses: u8,
    /// not 0: drops datagrams of UDP from port 7, 13, 17 or 19 to a port below 1024: 1
    pub loops: u8,
    /// not 0: drops fragments: 0
    pub fragments: u8,
    /// not 0: while a socket waits for its neighbour, no frame has the host ask for its sender within three seconds after one did, unless a socket asked since, or who was asked for is known: 1
    pub turns: u8,
    /// not 0: a query of IGMP or MLD doesn't take the place of an answer that waits, if that one has still to report the same, and no later, or if the query is about 224.0.0.1 or ff02::1: 1
    pub reports: u8,
    /// not 0: an advertisement from which no prefix and no router is learnt leaves the neighbours: 1
    pub routers: u8,
    /// not 0: half of the slots for fragments are kept for known neighbours: 1
    pub slots: u8,
    /// an error may be so many times as long as the frame that it answers; 0 sets no bound: 3
    pub longest_error: u32,
    /// a claim of an own IPv4 address that is dropped is answered by an announcement of it (RFC 5227, 2.4 c), unless one was in so many microseconds before; 0 announces nothing: 0
    pub defend: u32,
}

/// How a host is to be made: `iface_config_init` fills it in.
#[repr(C)]
#[derive(Clone, Copy, Debug)]
pub struct iface_config {
    /// of its random words, which need not be secret: another for each host and each start
    pub seed: u64,
    /// how long a packet waits for a neighbour that doesn't answer, in microseconds, before it is given up; 0 is for ever
    pub patience: u64,
    /// how long fragments of a packet wait for the others, in microseconds: not 0, at most a day. Where no slot is left for another packet, one whose fragments have waited for half a second gives way to it, and the guard's slots keeps half of them for known neighbours
    pub reassembly_timeout: u64,
    /// the moment at which the host begins: from 0 to `IFACE_LAST_MOMENT`
    pub start: i64,
    /// the longest frame of the link in octets, with a header of Ethernet and without its checksum: 1514 on usual Ethernet
    pub frame_len: u32,
    /// how many may be open at once; memory for their places is taken at once
    pub sockets: u32,
    /// how many neighbours it knows at once, of both versions together, in memory that is taken at once; 0 is four, without such memory. A new one replaces the one that ends first
    pub neighbors: u32,
    /// for how many own addresses there is room, those from routers included: 4 to 16, and less is 4, more is 16
    pub addresses: u32,
    /// for how many routes there is room, at most 32, in memory that is taken at once; 0 is four, without such memory
    pub routes: u32,
    /// for how many groups there is room, at most 16: on Ethernet the solicited-node groups of own IPv6 addresses are among them
    pub groups: u32,
    /// how many prefixes of routers are kept, at most 8
    pub prefixes: u32,
    /// how many routers are kept, at most 8
    pub routers: u32,
    /// how many packets in fragments are put together at a time, each in a slot of memory that is taken at once; 0 is two, without such memory
    pub fragmented: u32,
    /// how many frames the link takes one after the other: the window in a segment of TCP is at most what so many carry; 0 sets no bound
    pub burst: u32,
    /// on Ethernet; else it isn't read
    pub hardware_address: [u8; 6],
    /// `IFACE_ETHERNET` or `IFACE_IP`
    pub medium: u8,
    /// not 0: it takes IPv6 addresses and routes from routers (RFC 4862)
    pub slaac: u8,
    /// `IFACE_BOTH` for each: the host verifies and computes all
    pub checksums: iface_checksums,
    /// on Ethernet; else it isn't read
    pub guard: iface_guard,
}

/// What a host counted since it was made. A number stays at the greatest one.
#[repr(C)]
#[derive(Clone, Copy, Debug)]
pub struct iface_counts {
    /// frames that `iface_receive` took, without those that the guard dropped
    pub frames_in: u64,
    /// frames that `iface_receive` and `iface_next` wrote
    pub frames_out: u64,
    /// packets that were given up, of all sockets
    pub given_up: u64,
    /// how often memory for a frame was refused in the middle of a round: what was to be sent waits
    pub no_memory: u64,
}

/// How many frames a host's guard dropped, by the reason, and how many answers it held back. What is dropped isn't counted among the frames that the host took. A number stays at the greatest one.
#[repr(C)]
#[derive(Clone, Copy, Debug)]
pub struct iface_drops {
    /// messages that claim an own address
    pub own_address: u64,
    /// packets from an own address
    pub own_source: u64,
    /// messages that tell another hardware address of a pinned neighbour
    pub pinned: u64,
    /// fragments, and strangers' for which no slot is left, as half are kept for known neighbours
    pub fragment: u64,
    /// `loops`.
    pub loops: u64,
    /// echo requests, and fragments of ICMP, beyond their rate
    pub echo_request: u64,
    /// held back
    pub error: u64,
    /// held back
    pub reset: u64,
}

/// A handle, which owns a client or none. Its fields are the library's.
#[repr(C)]
#[derive(Debug)]
pub struct iface_dhcp {
    tag: u64,
    at: *mut c_void,
}

/// What a server leased. An address that the server didn't tell has version 0.
#[repr(C)]
#[derive(Clone, Copy, Debug)]
pub struct iface_lease {
    /// `address`.
    pub address: iface_address,
    /// of the default route; where routes are told, of that among them, or none (RFC 3442)
    pub router: iface_address,
    /// the one that leased it
    pub server: iface_address,
    /// of names, from the first place on
    pub dns_servers: [iface_address; 3],
    /// how many bits of the address are the network's: 32 without a mask
    pub prefix_len: u8,
    /// the longest packet of the network, 68 octets or more; 0 if the server didn't tell it
    pub mtu: u16,
    /// when it ends, unless it is renewed before; `IFACE_NEVER` for a lease without end
    pub expires_at: i64,
}

/// A handle, which owns a client or none. Its fields are the library's.
#[repr(C)]
#[derive(Debug)]
pub struct iface_dns {
    tag: u64,
    at: *mut c_void,
}

/// A query, and what it found.
#[repr(C)]
#[derive(Clone, Copy, Debug)]
pub struct iface_dns_answer {
    /// of enum `iface_dns_state`
    pub state: u32,
    /// the first addresses of the name, from the first place on; version 0 in the others
    pub addresses: [iface_address; 4],
}

/// A handle, which owns connections or none. Its fields are the library's.
#[repr(C)]
#[derive(Debug)]
pub struct iface_streams {
    tag: u64,
    at: *mut c_void,
}

/// How connections are to be made: `iface_streams_config_init` fills it in, but for the two secrets.
#[repr(C)]
#[derive(Clone, Copy, Debug)]
pub struct iface_streams_config {
    /// a secret of random octets, by which initial numbers can't be guessed (RFC 6528)
    pub number_key: [u8; 32],
    /// another one, by which nobody chooses ends that are slow to find
    pub table_key: [u64; 2],
    /// how long nothing arrives before a peer is probed; 0 for never: 0
    pub keep_alive: u64,
    /// the same for a peer that asked for the connection; 0 for never: 120,000,000
    pub accepted_keep_alive: u64,
    /// how long a peer may leave what was sent unanswered, and unacknowledged while its window has room for it; 0 for twelve tries: 0
    pub timeout: u64,
    /// how long an acknowledgement of octets in order may wait: 10,000
    pub ack_delay: u64,
    /// the shortest time after which something is sent again: 200,000
    pub shortest_timeout: u64,
    /// how long TIME-WAIT lasts: 60,000,000
    pub time_wait: u64,
    /// how long a connection may go on that was released, before it ends in a reset, whatever its peer does: 120,000,000. All of these are in microseconds
    pub release_timeout: u64,
    /// how many connections there are at most, from 1 to 2^30: 8
    pub places: u32,
    /// how many octets each may hold that aren't acknowledged, at most 2^30: 4,096
    pub send_room: u32,
    /// how many octets each may hold that aren't read, at most 2^30: 4,096
    pub receive_room: u32,
    /// how many packets wait between the connections and the host, each way and family: 8
    pub packets: u32,
    /// how many octets they have together: 1,536
    pub packet_octets: u32,
    /// how many octets packets have together that wait for peers that haven't answered, of which at most 16 do: 1,024
    pub far_octets: u32,
    /// not 0: over IPv4: 1
    pub ipv4: u8,
    /// not 0: over IPv6: 1
    pub ipv6: u8,
    /// not 0: short segments wait while something is unacknowledged: 1
    pub nagle: u8,
    /// not 0: a congestion window narrows what is sent: 1
    pub congestion_control: u8,
}

/// The name of a connection, which may be copied. Once the program has released it, it names nothing.
#[repr(C)]
#[derive(Clone, Copy, Debug)]
pub struct iface_stream {
    /// `place`.
    pub place: usize,
    /// `generation`.
    pub generation: u64,
}

impl iface {
    /// A handle that owns no host.
    pub const NONE: iface = iface {
        tag: 0,
        at: core::ptr::null_mut(),
    };
}

impl iface_dhcp {
    /// A handle that owns no client.
    pub const NONE: iface_dhcp = iface_dhcp {
        tag: 0,
        at: core::ptr::null_mut(),
    };
}

impl iface_dns {
    /// A handle that owns no client.
    pub const NONE: iface_dns = iface_dns {
        tag: 0,
        at: core::ptr::null_mut(),
    };
}

impl iface_streams {
    /// A handle that owns no connections.
    pub const NONE: iface_streams = iface_streams {
        tag: 0,
        at: core::ptr::null_mut(),
    };
}

const _: () = assert!(size_of::<iface_address>() == 17);
const _: () = assert!(size_of::<iface_endpoint>() == 20);
const _: () = assert!(size_of::<iface_config>() == 136);
const _: () = assert!(size_of::<iface>() == 16);
const _: () = assert!(size_of::<iface_cidr>() == 18);
const _: () = assert!(size_of::<iface_counts>() == 32);
const _: () = assert!(size_of::<iface_queue>() == 20);
const _: () = assert!(size_of::<iface_checksums>() == 5);
const _: () = assert!(size_of::<iface_rate>() == 8);
const _: () = assert!(size_of::<iface_guard>() == 44);
const _: () = assert!(size_of::<iface_drops>() == 64);
const _: () = assert!(size_of::<iface_lease>() == 120);
const _: () = assert!(size_of::<iface_dhcp>() == 16);
const _: () = assert!(size_of::<iface_dns_answer>() == 72);
const _: () = assert!(size_of::<iface_dns>() == 16);
const _: () = assert!(size_of::<iface_streams_config>() == 136);
const _: () = assert!(size_of::<iface_streams>() == 16);
const _: () = assert!(size_of::<iface_stream>() == 16);
const _: () = assert!(size_of::<iface_rooms>() == 16);
const _: () = assert!(size_of::<iface_segment>() == 32);

unsafe extern "C" {
    /// Writes what most programs want: frames of 1514 octets on Ethernet, 8 sockets, 128 neighbours, no addresses from routers, a patience of 3 s (three requests, a second apart: RFC 4861, 10), 16 slots for fragments, which wait 10 s, and a guard. The start is 0, the seed is 0, and the hardware address all zeros: set the last two.
    pub fn iface_config_init(config: *mut iface_config);
    /// What `iface_new` calls, with the version of the header that the program was built with.
    pub fn iface_new_for(host: *mut iface, config: *const iface_config, version: u32) -> u32;
    /// Frees a host, with its sockets and the frames that wait. The handle owns none from then on. NO_HOST.
    pub fn iface_free(host: *mut iface) -> u32;
    /// Adds an own address with its network, as 192.168.69.1 with 24, after the others, and forgets all neighbours. On Ethernet the host joins the solicited-node group of an IPv6 address (RFC 4291, 2.7.1), if there is room for a group. BAD_ARGUMENT, TABLE_FULL, NOT_UNICAST (neither unicast nor unspecified).
    pub fn iface_add_address(host: *mut iface, address: *const iface_address, prefix_len: u8) -> u32;
    /// Takes out the first own address that is this one with this prefix, and forgets all neighbours. BAD_ARGUMENT, NOT_THERE.
    pub fn iface_remove_address(host: *mut iface, address: *const iface_address, prefix_len: u8) -> u32;
    /// Makes a list its own addresses, with their networks, and forgets all neighbours. TABLE_FULL (more than 16), BAD_ARGUMENT, NO_HOST, TABLE_FULL (more than there is room for), NOT_UNICAST: in this order.
    pub fn iface_set_addresses(host: *mut iface, addresses: *const iface_cidr, count: usize) -> u32;
    /// Writes the own address at a place of their list, from 0 on: those that came from routers stand there too. NOT_THERE.
    pub fn iface_address_at(host: *mut iface, place: u32, address: *mut iface_address, prefix_len: *mut u8) -> u32;
    /// Writes the link-local address that a hardware address makes: fe80::/64 with its modified EUI-64 (RFC 4291, 2.5.1 and appendix A; RFC 2464, 5). It needs no host. NOT_UNICAST (a group's hardware address).
    pub fn iface_link_local(hardware_address: *const u8, address: *mut iface_address) -> u32;
    /// Joins a group: from now on packets to it are taken, and `iface_next` tells routers of it (RFC 2236, RFC 3810). On Ethernet the solicited-node groups of own addresses take room as well, if there was room for them. BAD_ARGUMENT, BAD_ADDRESS (no group's), TABLE_FULL.
    pub fn iface_join_group(host: *mut iface, group: *const iface_address) -> u32;
    /// Leaves a group, if the host is in it. BAD_ARGUMENT, BAD_ADDRESS.
    pub fn iface_leave_group(host: *mut iface, group: *const iface_address) -> u32;
    /// Writes 1 if the host is in a group, else 0, also where the address is no group's. Beside those that it joined, it is in 224.0.0.1 (RFC 1112), and in ff02::1 and the solicited-node groups of its own addresses (RFC 4291, 2.8). Nothing changes. BAD_ARGUMENT.
    pub fn iface_has_group(host: *mut iface, group: *const iface_address, is: *mut u8) -> u32;
    /// Sets the host's address on Ethernet, six octets: frames are sent from it from now on, and those to it are taken. Those of a round that wait already are still from the one before. Own addresses and groups stay. NOT_THERE (a medium without hardware addresses), NOT_UNICAST.
    pub fn iface_set_hardware_address(host: *mut iface, address: *const u8) -> u32;
    /// Writes the host's address on Ethernet, six octets. NOT_THERE (a medium without hardware addresses).
    pub fn iface_hardware_address(host: *mut iface, address: *mut u8) -> u32;
    /// Sets how long fragments of a packet wait for the others, in microseconds: not 0, at most a day. A packet whose first fragment came before waits as long as was set then. BAD_TIMEOUT.
    pub fn iface_set_reassembly_timeout(host: *mut iface, micros: u64) -> u32;
    /// Writes how long fragments of a packet wait for the others, in microseconds.
    pub fn iface_reassembly_timeout(host: *mut iface, micros: *mut u64) -> u32;
    /// Sets whether addresses that are routed to the host count as its own: not 0, or 0, as at first. They are unicast addresses whose best route is by a router with an own address of the host.
    pub fn iface_set_any_ip(host: *mut iface, on: u8) -> u32;
    /// Writes 1 if addresses that are routed to the host count as its own, else 0.
    pub fn iface_any_ip(host: *mut iface, on: *mut u8) -> u32;
    /// Writes the moment at which own addresses and routes were last made those that routers advertise (RFC 4862), and 0 before the first time.
    pub fn iface_slaac_updated_at(host: *mut iface, at: *mut i64) -> u32;
    /// Sets the default route of the gateway's family, in place of the first one that is there, and puts it last. BAD_ARGUMENT, TABLE_FULL.
    pub fn iface_set_default_route(host: *mut iface, gateway: *const iface_address) -> u32;
    /// Adds a route to a network by a router, last in the list. The longest prefix wins, of equal ones the last. The router may be of the other family: it is asked for by its own. BAD_ARGUMENT, TABLE_FULL.
    pub fn iface_add_route(host: *mut iface, network: *const iface_address, prefix_len: u8, router: *const iface_address) -> u32;
    /// The same up to an end: the route is used until that moment, which is included, and stays in the table after it. With `IFACE_NEVER` it has none. BAD_ARGUMENT, BAD_MOMENT, TABLE_FULL.
    pub fn iface_add_route_until(host: *mut iface, network: *const iface_address, prefix_len: u8, router: *const iface_address, until: i64) -> u32;
    /// Takes out the first route to a network. BAD_ARGUMENT, NOT_THERE.
    pub fn iface_remove_route(host: *mut iface, network: *const iface_address, prefix_len: u8) -> u32;
    /// Writes the route at a place of their list, from 0 on, and the moment until which it is used, which is included: `IFACE_NEVER` if it has no end. Those that came from routers stand there too. NOT_THERE.
    pub fn iface_route_at(host: *mut iface, place: u32, network: *mut iface_address, prefix_len: *mut u8, router: *mut iface_address, until: *mut i64) -> u32;
    /// Writes the own address that packets to a destination are sent from, where their socket names none. Over IPv4 it is the first whose network has the destination, else the first one; over IPv6 the best one (RFC 6724, 5: rules 1, 2 and 8), and ::1 where the host has none. BAD_ARGUMENT, NOT_THERE (no own address of IPv4).
    pub fn iface_source_for(host: *mut iface, remote: *const iface_address, source: *mut iface_address) -> u32;
    /// Writes the neighbour at a place of their list, from 0 on: its address, that on Ethernet, six octets, and the moment from which the latter isn't known any more. At most as many stand there as the host knows at once, by rising moments, those whose moment has passed too. Without hardware addresses there is none. NOT_THERE.
    pub fn iface_neighbor_at(host: *mut iface, place: u32, address: *mut iface_address, hardware_address: *mut u8, until: *mut i64) -> u32;
    /// UDP (RFC 768) at a port of one address. At a port of any, of both versions, if the version of local is 0 as in `IFACE_ANY`, or its address 0.0.0.0 or ::. Of the sockets that may get a datagram the one with the least number gets it, and no other. To groups and broadcast addresses that is the first at the port, also if its own is one address. BAD_PORT, BAD_ADDRESS (a group's, or 255.255.255.255).
    pub fn iface_udp_open(host: *mut iface, local: *const iface_endpoint, rooms: *const iface_rooms, socket: *mut u32) -> u32;
    /// Whole packets of a version of IP and a protocol, which come to each such socket: over IPv4 those for other hosts too, in frames that are taken. The header is written anew, in what comes and in what goes. Options, type of service, identification and DF are lost, and of IPv6 traffic class and flow label. The time to live stays, also one of 0.
    pub fn iface_raw_open(host: *mut iface, version: u8, protocol: u8, rooms: *const iface_rooms, socket: *mut u32) -> u32;
    /// Echo messages of either ICMP with an identifier (RFC 792, RFC 4443).
    pub fn iface_icmp_open_ident(host: *mut iface, ident: u16, rooms: *const iface_rooms, socket: *mut u32) -> u32;
    /// Port unreachables of either ICMP for datagrams of UDP from this port of the host. Port 0 isn't refused.
    pub fn iface_icmp_open_port(host: *mut iface, port: u16, rooms: *const iface_rooms, socket: *mut u32) -> u32;
    /// Segments of TCP (RFC 9293) at a port of one address, or of any, as for UDP; from one end alone, or from each one if the version of remote is 0 as in `IFACE_ANY`. The library hands segments in and out, and keeps no connection: it computes and verifies checksums, and answers by a reset what no socket takes. Of the sockets that are for a segment the one with the least number gets it: open one for one end before one for each. BAD_PORT (also the remote one), BAD_ADDRESS (also an unspecified remote one).
    pub fn iface_tcp_open(host: *mut iface, local: *const iface_endpoint, remote: *const iface_endpoint, rooms: *const iface_rooms, socket: *mut u32) -> u32;
    /// Closes a socket of whatever kind: what waits in it is dropped. Its frames that a round has sent already are still handed over by `iface_next`. NO_SOCKET.
    pub fn iface_close(host: *mut iface, socket: u32) -> u32;
    /// Sets the hop limit of the packets that a socket sends from now on, those that wait among them: 64 at first. BAD_ARGUMENT (0), NO_SOCKET (also for a raw one, whose packets have their own headers).
    pub fn iface_set_hop_limit(host: *mut iface, socket: u32, hop_limit: u8) -> u32;
    /// Writes the hop limit of the packets that a socket sends. NO_SOCKET, as above.
    pub fn iface_hop_limit(host: *mut iface, socket: u32, hop_limit: *mut u8) -> u32;
    /// Writes what waits in the two queues of a socket of whatever kind: what was received, and what is to be sent. NO_SOCKET.
    pub fn iface_queues(host: *mut iface, socket: u32, received: *mut iface_queue, to_send: *mut iface_queue) -> u32;
    /// A datagram with this payload: over IPv4 of at most 4096 octets with its headers (28), in pieces if the link's packets are shorter, over IPv6 of at most one packet of the link with its headers (48). BAD_ARGUMENT, BAD_PORT, BAD_ADDRESS (unspecified), TOO_LONG, NO_ROUTE (one that is unicast; a route whose end has passed counts).
    pub fn iface_udp_send(host: *mut iface, socket: u32, remote: *const iface_endpoint, payload: *const u8, payload_len: usize) -> u32;
    /// A message of ICMP, over IPv4 of at most 4096 octets with its header (20), over IPv6 of at most one packet of the link with its header (40). One that isn't an echo message of the address's family is dropped later. BAD_ARGUMENT, BAD_ADDRESS (unspecified), TOO_LONG, NO_ROUTE (likewise).
    pub fn iface_icmp_send(host: *mut iface, socket: u32, remote: *const iface_address, message: *const u8, message_len: usize) -> u32;
    /// A packet with its header, which is written anew: one that isn't of the socket's version and protocol, or is too long to be sent, is dropped later.
    pub fn iface_raw_send(host: *mut iface, socket: u32, packet: *const u8, packet_len: usize) -> u32;
    /// A segment from the socket's port, with its payload: over IPv4 of at most 4096 octets with its headers (40), over IPv6 of at most one packet of the link with its headers (60). BAD_ARGUMENT (a control that is none), BAD_PORT, BAD_ADDRESS (unspecified), TOO_LONG.
    pub fn iface_tcp_send(host: *mut iface, socket: u32, segment: *const iface_segment, payload: *const u8, payload_len: usize) -> u32;
    /// A TCP socket sends nothing before this moment: 0 at first. BAD_MOMENT, NO_SOCKET.
    pub fn iface_tcp_hold(host: *mut iface, socket: u32, until: i64) -> u32;
    /// From now on a TCP socket gets no segment: each that it would have got is answered by a reset, unless it is one. What waits in its queues stays. NO_SOCKET.
    pub fn iface_tcp_abort(host: *mut iface, socket: u32) -> u32;
    /// Each of these takes the first packet that came, and writes it, how long it is and where it came from. NO_SOCKET, EMPTY, NO_ROOM: then it stays. Room for the octets that the socket's queue holds is always enough.
    pub fn iface_udp_receive(host: *mut iface, socket: u32, remote: *mut iface_endpoint, out: *mut u8, room: usize, length: *mut usize) -> u32;
    /// A message of ICMP, from its type on.
    pub fn iface_icmp_receive(host: *mut iface, socket: u32, remote: *mut iface_address, out: *mut u8, room: usize, length: *mut usize) -> u32;
    /// A packet with its header.
    pub fn iface_raw_receive(host: *mut iface, socket: u32, out: *mut u8, room: usize, length: *mut usize) -> u32;
    /// A segment, and its payload.
    pub fn iface_tcp_receive(host: *mut iface, socket: u32, segment: *mut iface_segment, out: *mut u8, room: usize, length: *mut usize) -> u32;
    /// Each of these writes what the call above with receive in its name does, and leaves the packet there: nothing of the host changes. NO_SOCKET, EMPTY, NO_ROOM.
    pub fn iface_udp_peek(host: *mut iface, socket: u32, remote: *mut iface_endpoint, out: *mut u8, room: usize, length: *mut usize) -> u32;
    /// Each of these writes what the call above with receive in its name does, and leaves the packet there: nothing of the host changes. NO_SOCKET, EMPTY, NO_ROOM.
    pub fn iface_icmp_peek(host: *mut iface, socket: u32, remote: *mut iface_address, out: *mut u8, room: usize, length: *mut usize) -> u32;
    /// Each of these writes what the call above with receive in its name does, and leaves the packet there: nothing of the host changes. NO_SOCKET, EMPTY, NO_ROOM.
    pub fn iface_raw_peek(host: *mut iface, socket: u32, out: *mut u8, room: usize, length: *mut usize) -> u32;
    /// Each of these writes what the call above with receive in its name does, and leaves the packet there: nothing of the host changes. NO_SOCKET, EMPTY, NO_ROOM.
    pub fn iface_tcp_peek(host: *mut iface, socket: u32, segment: *mut iface_segment, out: *mut u8, room: usize, length: *mut usize) -> u32;
    /// Writes for whom the first packet of a socket waits, and since when, as of the last round. NO_SOCKET, EMPTY.
    pub fn iface_waiting(host: *mut iface, socket: u32, remote: *mut iface_address, since: *mut i64) -> u32;
    /// Writes the destination of the packet that a socket gave up last, once. NO_SOCKET, EMPTY.
    pub fn iface_given_up(host: *mut iface, socket: u32, remote: *mut iface_address) -> u32;
    /// Writes how many packets were given up, of all sockets.
    pub fn iface_given_up_count(host: *mut iface, count: *mut u64) -> u32;
    /// Takes a frame of any octets, and writes the frame that is to be sent in response, of `*length` octets; none if that is 0. A frame that the guard drops changes nothing but what the guard keeps, and is answered by the announcement of an own address alone, if defend is set.
    pub fn iface_receive(host: *mut iface, now: i64, frame: *const u8, frame_len: usize, out: *mut u8, room: usize, length: *mut usize) -> u32;
    /// Writes the next frame that is to be sent, of `*length` octets; 0 says that the round sent nothing.
    ///
    /// Frames are sent in rounds: in a round what has ended is dropped, routers are told of groups, and each socket that has something to send sends one packet, in the order of their numbers. A packet that goes in pieces is begun when no piece of another one is left, so sockets take turns with such packets. The frames of a round wait in the library until they are asked for, one a call; a call that finds none makes the next round. So no socket is passed over, however seldom frames are asked for. Call it until `*length` is 0, and then ask `iface_poll_at`. NO_MEMORY (before a round, if memory for a frame is refused).
    pub fn iface_next(host: *mut iface, now: i64, out: *mut u8, room: usize, length: *mut usize) -> u32;
    /// Writes 1 if a socket may have changed by frames that were taken and rounds that were made since this was last asked, else 0. It may have if a frame was taken that isn't empty, or if a round sent a packet of a socket, or dropped one as too long. One that is dropped when its socket is asked for it, without a source or of a kind that the socket doesn't send, isn't told of: `iface_queues` tells of it. What a socket gave up is told by `iface_given_up`.
    pub fn iface_sockets_changed(host: *mut iface, changed: *mut u8) -> u32;
    /// Writes what the host counted.
    pub fn iface_counters(host: *mut iface, counters: *mut iface_counts) -> u32;
    /// Writes how many frames the host's guard dropped, by the reason, and how many answers it held back.
    pub fn iface_guard_drops(host: *mut iface, drops: *mut iface_drops) -> u32;
    /// Writes the hardware address that the last frame came from which the guard dropped as claiming an own address, six octets, and the moment at which it came (RFC 5227, 2.4). NOT_THERE (no such frame came).
    pub fn iface_guard_conflict(host: *mut iface, hardware_address: *mut u8, at: *mut i64) -> u32;
    /// Pins a neighbour to a hardware address, six octets, in place of the one that it is pinned to. The guard drops ARP packets and neighbour messages of it that tell another one, as long as it is on. An entry with another one expires at once. The host learns the address from the next message that tells this one, and asks for it as for any other. BAD_ARGUMENT (the version), NOT_UNICAST (one of the two), TABLE_FULL (eight others are pinned).
    pub fn iface_guard_pin(host: *mut iface, address: *const iface_address, hardware_address: *const u8) -> u32;
    /// Pins a neighbour no more. BAD_ARGUMENT, NOT_THERE (it isn't pinned).
    pub fn iface_guard_unpin(host: *mut iface, address: *const iface_address) -> u32;
    /// Writes the hardware address that the last frame came from which the guard dropped for telling another hardware address of a pinned neighbour, and the moment at which it came. NOT_THERE (no such frame came).
    pub fn iface_guard_pinned_conflict(host: *mut iface, hardware_address: *mut u8, at: *mut i64) -> u32;
    /// Writes the instant at which `iface_next` is to be called again, if no frame comes before and no call changes the host: one that has passed, if something is due at once, and `IFACE_NEVER`, if nothing is due.
    pub fn iface_poll_at(host: *mut iface, now: i64, at: *mut i64) -> u32;
    /// Makes a client for a host with a hardware address, which the handle owns from then on. The seed is of the numbers by which its messages are known, another for each host and each start. known is an address that the host had before, which the client asks for first, or `IFACE_ANY`. HAS_CLIENT, BAD_ARGUMENT (a version of known that is neither 0 nor 4), NO_HOST, NOT_THERE (a medium without hardware addresses), TABLE_FULL (no two sockets are left), NO_MEMORY.
    pub fn iface_dhcp_new(client: *mut iface_dhcp, host: *mut iface, seed: u64, known: *const iface_address) -> u32;
    /// Sets the codes of the options that servers are asked for, in place of those before, in all messages from then on. The client asks for 1, 3, 6, 26 and 121 itself. NO_CLIENT, TOO_LONG (more than 16).
    pub fn iface_dhcp_parameters(client: *mut iface_dhcp, codes: *const u8, count: usize) -> u32;
    /// Sets the name of the host, which is in all messages from then on (RFC 2132, 3.14); none, of no octets, is told at first. NO_CLIENT, TOO_LONG (more than 63 octets).
    pub fn iface_dhcp_host_name(client: *mut iface_dhcp, name: *const c_char, length: usize) -> u32;
    /// Does what is due: the client takes what came to port 68, a message that is to be sent now is queued, and what has become of the lease is written. A message for which there is no room or no memory counts as lost, and is sent again later. NO_CLIENT, NO_HOST, BAD_MOMENT, NO_SOCKET (the host hasn't the client's socket).
    pub fn iface_dhcp_poll(client: *mut iface_dhcp, host: *mut iface, now: i64, event: *mut u32) -> u32;
    /// Writes the instant at which `iface_dhcp_poll` is to be called again, if nothing comes before: `IFACE_NEVER` only for a lease without end. NO_CLIENT.
    pub fn iface_dhcp_poll_at(client: *mut iface_dhcp, at: *mut i64) -> u32;
    /// Writes the code for which the message that was due last is lost, or 0 if it isn't: NO_MEMORY (for the raw socket), QUEUE_FULL (the message before still waits, as for its server's neighbour), TABLE_FULL (other sockets took the place while memory was refused), NO_SOCKET. The next message is due at the instant of `iface_dhcp_poll_at`. NO_CLIENT.
    pub fn iface_dhcp_lost(client: *mut iface_dhcp, why: *mut u32) -> u32;
    /// Writes the lease that the client has. NO_CLIENT, EMPTY (it has none, or tests its address).
    pub fn iface_dhcp_lease(client: *mut iface_dhcp, lease: *mut iface_lease) -> u32;
    /// Writes the octets of an option of the lease, put together (RFC 3396), and how many there are. Of more than 256 the first ones count. NO_CLIENT, EMPTY (no lease, or no such option), NO_ROOM.
    pub fn iface_dhcp_option(client: *mut iface_dhcp, code: u8, out: *mut u8, room: usize, length: *mut usize) -> u32;
    /// Gives the host the address of the lease with its network, its router as a default route, and up to eight other routes of option 121 (RFC 3442), after the others; in place of those that the client gave it before, and none without a lease. That forgets all neighbours, unless address, network and router are the same as before. Other addresses and routes stay. A route of option 121 is left out where there is no room for it, and where its router is 0.0.0.0, which says that its network is on the link. NO_CLIENT, NO_HOST, TABLE_FULL, NOT_UNICAST (one of all own addresses can't be one).
    pub fn iface_dhcp_apply(client: *mut iface_dhcp, host: *mut iface) -> u32;
    /// Lets the address of each lease be tested before it is used, and announced (RFC 2131 4.4.1, RFC 5227 2.1.1, 2.3), unless it is 0. It is on by default. Three ARP probes then go, the first one within a second, then a second or two apart. Two seconds later, if no other host has the address or probes for it, `iface_dhcp_poll` tells `IFACE_DHCP_CONFIGURED`, and two announcements go, two seconds apart. Otherwise the client declines the lease (DHCPDECLINE), and asks for offers after ten seconds, or after a minute from the tenth on. A probe of another host for the address in use is answered by an announcement, one each two seconds at most. Where it is off, a host has its address four to seven seconds sooner, and nobody is asked. It belongs behind `iface_dhcp_new`. NO_CLIENT.
    pub fn iface_dhcp_set_probing(client: *mut iface_dhcp, on: u8) -> u32;
    /// Writes how many leases the client has declined, 255 at most. NO_CLIENT.
    pub fn iface_dhcp_declined(client: *mut iface_dhcp, count: *mut u8) -> u32;
    /// Releases the lease (DHCPRELEASE): the message to its server waits at the client's UDP socket, and the lease is given up. Call `iface_next` until it has gone, then `iface_dhcp_apply`, which takes the address, and `iface_dhcp_free`: a client that is polled again asks for offers. `iface_dhcp_lost` tells why the message is lost. NO_CLIENT, NO_HOST, EMPTY (no lease).
    pub fn iface_dhcp_release(client: *mut iface_dhcp, host: *mut iface) -> u32;
    /// Is called once a link came up. Gives up the lease, if there is one, and asks for its address again (RFC 2131, 3.2): where the link leads to another network the server refuses it, and the client asks for offers. Without a lease the client begins anew. The next `iface_dhcp_poll` tells of a lease that is gone. NO_CLIENT.
    pub fn iface_dhcp_reset(client: *mut iface_dhcp) -> u32;
    /// Frees a client: the handle owns none from then on. If the other handle owns a host, the client's sockets there are closed. What the client gave the host stays: call `iface_dhcp_reset` and `iface_dhcp_apply` before. NO_CLIENT.
    pub fn iface_dhcp_free(client: *mut iface_dhcp, host: *mut iface) -> u32;
    /// Makes a client for so many queries at once, which the handle owns from then on. key is 16 random octets, a secret: the numbers and ports of queries come from it, and who doesn't know it can't tell the next ones from those before (RFC 5452, 9.2). servers is an array of `IFACE_DNS_SERVERS` addresses, in the order in which they are asked. Those of version 0, as `IFACE_ANY`, are left out; so the servers of a lease may be handed over as they are. HAS_CLIENT, BAD_ARGUMENT (a server whose version is neither 0, 4 nor 6), NOT_UNICAST (an address that no other host can have: a group's, a loopback one, one of 0.0.0.0/8 or 240.0.0.0/4), NO_MEMORY.
    pub fn iface_dns_new(dns: *mut iface_dns, queries: u32, key: *const u64, servers: *const iface_address) -> u32;
    /// Sets the servers, as `iface_dns_new` has them, in place of those before. Queries that wait go on with the new ones: each asks the one whose turn it is, and no answer of another counts; without a server they time out. BAD_ARGUMENT, NO_CLIENT, NOT_UNICAST, NO_MEMORY.
    pub fn iface_dns_servers(dns: *mut iface_dns, servers: *const iface_address) -> u32;
    /// Starts a query for a name, as "www.example.com" with 15: length octets, of which a dot at the end is left out. Labels between dots have 1 to 63 octets of any value, and the name is at most 253 octets long (RFC 1035, 2.3.4). query_type is of enum `iface_dns_type`. Writes the query's number, the least that names none. The query stays until it is cancelled. A name that is an address in text, as "192.0.2.1" or "2001:db8::1", asks nobody: its query has the result at once. BAD_ARGUMENT (the type), NO_CLIENT, NO_HOST, BAD_MOMENT, BAD_NAME (a label that is empty or too long, or too long a name), NO_SERVER, TABLE_FULL (each number names a query; all sockets are open), NO_MEMORY.
    pub fn iface_dns_start(dns: *mut iface_dns, host: *mut iface, now: i64, name: *const c_char, length: usize, query_type: u32, query: *mut usize) -> u32;
    /// Does what is due: queries take what came to their sockets, queue what they send now, and give up after their time. The socket of a query that waits no longer is closed. A message for which there is no room counts as lost. NO_CLIENT, NO_HOST, BAD_MOMENT.
    pub fn iface_dns_poll(dns: *mut iface_dns, host: *mut iface, now: i64) -> u32;
    /// Writes the instant at which `iface_dns_poll` is to be called again, if nothing comes before and no query is started: one that has passed, if something is due at once, and `IFACE_NEVER`, if no query waits. NO_CLIENT.
    pub fn iface_dns_poll_at(dns: *mut iface_dns, at: *mut i64) -> u32;
    /// Writes what has become of a query. An answer counts only if it comes from the server that was asked last, from its port 53, to the query's port, with the query's number and its question (RFC 5452, 9.1). NO_CLIENT, NOT_THERE (the number names no query).
    pub fn iface_dns_result(dns: *mut iface_dns, query: usize, result: *mut iface_dns_answer) -> u32;
    /// Ends a query, whatever has become of it, and closes its socket if that is still open: its number names none from then on. NO_CLIENT, NO_HOST, NOT_THERE (the number names no query).
    pub fn iface_dns_cancel(dns: *mut iface_dns, host: *mut iface, query: usize) -> u32;
    /// Frees a client with its queries: the handle owns none from then on. If the other handle owns a host, their sockets there are closed. NO_CLIENT.
    pub fn iface_dns_free(dns: *mut iface_dns, host: *mut iface) -> u32;
    /// Writes what most programs want: the values in the comments above, and zeros for the two secrets, which the program sets: `iface_streams_new` refuses zeros.
    pub fn iface_streams_config_init(config: *mut iface_streams_config);
    /// Makes connections for a host, which the handle owns from then on, and opens two raw sockets of the host for each family. Segments are as long as the link carries: 40 octets less than its longest packet over IPv4, 60 over IPv6. HAS_STREAMS, BAD_ARGUMENT (a number that is out of range, neither family, or a secret of zeros), NO_HOST, TABLE_FULL (the host has no places for the sockets), NO_MEMORY.
    pub fn iface_streams_new(tcp: *mut iface_streams, host: *mut iface, config: *const iface_streams_config) -> u32;
    /// Does what is due: the connections take what came, and what they send is queued. That may end one, by a time-out: look at `iface_stream_state` between this and sleeping. NO_STREAMS, NO_HOST, BAD_MOMENT.
    pub fn iface_streams_poll(tcp: *mut iface_streams, host: *mut iface, now: i64) -> u32;
    /// Writes the instant at which `iface_streams_poll` is to be called again, if nothing comes before and no call changes a connection: one that has passed, if something is due at once, and `IFACE_NEVER`, if nothing is due. NO_STREAMS.
    pub fn iface_streams_poll_at(tcp: *mut iface_streams, at: *mut i64) -> u32;
    /// Frees all connections without a word to their peers: the handle owns none from then on. If the other handle owns a host, their sockets there are closed. NO_STREAMS.
    pub fn iface_streams_free(tcp: *mut iface_streams, host: *mut iface) -> u32;
    /// Listens at a port of one local address; of any, if the version of local is 0 as in `IFACE_ANY`, or its address 0.0.0.0 or ::. At most backlog handshakes are under way, and as many connections wait to be accepted; 0 counts as 1. SYNs beyond are answered by cookies. Writes the listener's number, from 0 on. Of listeners at one port the first one gets the connections. BAD_ARGUMENT, BAD_PORT, BAD_ADDRESS (not unicast), NO_MEMORY.
    pub fn iface_stream_listen(tcp: *mut iface_streams, local: *const iface_endpoint, backlog: u32, listener: *mut usize) -> u32;
    /// Takes the connection of a listener that waits longest, and writes its name. EMPTY (none waits, or there is no such listener).
    pub fn iface_stream_accept(tcp: *mut iface_streams, listener: usize, stream: *mut iface_stream) -> u32;
    /// Writes the name of a connection of the program at which something changed, by frames and timers, since this call wrote it last: octets became readable, room to write came back, or the state is another one, also where the peer's end came or the connection ended. One that was accepted counts as changed. Each is written once until it changes again, and those that changed first come first: so after `iface_streams_poll` ask until there is none, and look at these alone. EMPTY (none has changed).
    pub fn iface_streams_changed(tcp: *mut iface_streams, stream: *mut iface_stream) -> u32;
    /// Closes a listener: a SYN for it is answered by a reset from then on, unless another one listens there. Handshakes under way end in a reset once they are complete, and connections that wait can still be accepted. Its number is given to no other listener, and its memory is freed with the connections. NOT_THERE (no listener has this number).
    pub fn iface_stream_close_listener(tcp: *mut iface_streams, listener: usize) -> u32;
    /// Opens a connection to a peer, from a port of one own address; or of the one that `iface_source_for` writes, if that of local is none. Writes its name. The next `iface_streams_poll` sends the SYN, and `iface_stream_state` tells what becomes of it. An address of local that the host doesn't have ends it then, as if aborted. BAD_ARGUMENT, NO_STREAMS, NO_HOST, BAD_MOMENT, BAD_PORT (also the peer's), NOT_THERE (no own address of this family), BAD_ADDRESS (one that isn't unicast, or they are of two families), NO_ROUTE, IN_USE (choose another port), TABLE_FULL (each place has a connection, none is half-open, and none that was released is in TIME-WAIT).
    pub fn iface_stream_connect(tcp: *mut iface_streams, host: *mut iface, now: i64, local: *const iface_endpoint, remote: *const iface_endpoint, stream: *mut iface_stream) -> u32;
    /// Queues the first octets, as many as there is room for, and writes how many: 0 once the program closed, or the connection is gone. Where it is 0, `iface_streams_poll_at` says what it said before.
    pub fn iface_stream_send(tcp: *mut iface_streams, stream: *const iface_stream, octets: *const u8, length: usize, count: *mut usize) -> u32;
    /// Takes the octets that came, in order and as many as there is room for, and writes how many: 0 where none came, and where no more come, which `iface_stream_state` tells apart. Where it is 0, `iface_streams_poll_at` says what it said before.
    pub fn iface_stream_receive(tcp: *mut iface_streams, stream: *const iface_stream, out: *mut u8, room: usize, count: *mut usize) -> u32;
    /// Writes what the call above does, and leaves the octets there.
    pub fn iface_stream_peek(tcp: *mut iface_streams, stream: *const iface_stream, out: *mut u8, room: usize, count: *mut usize) -> u32;
    /// Closes: the end follows what was written. The program may still read. One whose handshake isn't complete is gone.
    pub fn iface_stream_close(tcp: *mut iface_streams, stream: *const iface_stream) -> u32;
    /// Aborts: the connection is gone, and a peer that knows of it gets a reset.
    pub fn iface_stream_abort(tcp: *mut iface_streams, stream: *const iface_stream) -> u32;
    /// Lets go of a connection: its name names nothing from then on. It is aborted if the peer may still send; else it ends by itself. So a program that closes reads until the end before it releases. Each connection is to be released, also one that is gone.
    pub fn iface_stream_release(tcp: *mut iface_streams, stream: *const iface_stream) -> u32;
    /// Writes the state, of enum `iface_stream_state`.
    pub fn iface_stream_state(tcp: *mut iface_streams, stream: *const iface_stream, state: *mut u32) -> u32;
    /// Writes why it ended before both sides had closed, of enum `iface_stream_ending`.
    pub fn iface_stream_ending(tcp: *mut iface_streams, stream: *const iface_stream, ending: *mut u32) -> u32;
    /// Writes the two ends: the own one, and the peer's. NOT_THERE (it has none any more).
    pub fn iface_stream_ends(tcp: *mut iface_streams, stream: *const iface_stream, local: *mut iface_endpoint, remote: *mut iface_endpoint) -> u32;
    /// Writes how many octets `iface_stream_send` takes now, and how many `iface_stream_receive` writes.
    pub fn iface_stream_rooms(tcp: *mut iface_streams, stream: *const iface_stream, writable: *mut usize, readable: *mut usize) -> u32;
    /// Each of these sets what the field of its name in the configuration says, for one connection from now on.
    pub fn iface_stream_set_nagle(tcp: *mut iface_streams, stream: *const iface_stream, on: u8) -> u32;
    /// Each of these sets what the field of its name in the configuration says, for one connection from now on.
    pub fn iface_stream_set_ack_delay(tcp: *mut iface_streams, stream: *const iface_stream, micros: u64) -> u32;
    /// Each of these sets what the field of its name in the configuration says, for one connection from now on.
    pub fn iface_stream_set_keep_alive(tcp: *mut iface_streams, stream: *const iface_stream, micros: u64) -> u32;
    /// Each of these sets what the field of its name in the configuration says, for one connection from now on.
    pub fn iface_stream_set_timeout(tcp: *mut iface_streams, stream: *const iface_stream, micros: u64) -> u32;
    /// Sets how many routers the packets of one connection may pass, from the next one on (RFC 9293, 3.9.2). Each begins with 64. BAD_ARGUMENT (0).
    pub fn iface_stream_set_hop_limit(tcp: *mut iface_streams, stream: *const iface_stream, hop_limit: u8) -> u32;
    /// The version of the header that the library was built with.
    pub fn iface_version() -> u32;
    /// The library's name, version and commit, as "fumitorygate 0.14.0 (8e6aa25f6c2d)".
    pub fn iface_build() -> *const c_char;
    /// What a code says, as "the queue is full"; "unknown code" for a number that is none.
    pub fn iface_strerror(code: u32) -> *const c_char;
}

/// Makes a host, which the handle owns from then on. BAD_VERSION, HAS_HOST, BAD_ARGUMENT (the medium, a checksum), NOT_UNICAST (the hardware address), BAD_MTU, BAD_TIMEOUT, BAD_MOMENT (the start), NO_MEMORY: in this order.
///
/// # Safety
/// As each call of the header.
pub unsafe fn iface_new(host: *mut iface, config: *const iface_config) -> u32 {
    // SAFETY: the caller keeps what the header says.
    unsafe { iface_new_for(host, config, IFACE_VERSION) }
}
