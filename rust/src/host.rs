//! The library's calls, as safe methods: those for connections of TCP are in `host/streams.rs`. Nothing else of this crate
//! calls it.
//!
//! What `iface.h` asks of its caller, and what keeps it here:
//!
//! | Asked | Kept by |
//! |---|---|
//! | a handle begins as `IFACE_NONE`, is only written by the library, and isn't copied | `raw` is private and neither `Copy` nor `Clone`; `Host::new` alone makes one; after a move nothing is left that can be used |
//! | one call at a time | each method takes `&mut self` |
//! | no pointer is null, lengths are true | pointers and lengths are those of references and slices |
//! | nothing overlaps | a `&mut` excludes any other reference to the same octets |
//! | each call may be in another thread | `Send`; not `Sync`, which `&mut self` makes useless |
//! | malloc and the like of one allocator, not in a signal handler or a forked child | the program's: in Rust both are `unsafe` to get into |
use crate::checksum::ChecksumCapabilities;
use crate::guard::{Conflict, Drops, Guard};
use crate::sys;
use crate::time::{Duration, Instant};
use crate::wire::{
    EthernetAddress, HardwareAddress, IpAddress, IpCidr, IpEndpoint, IpListenEndpoint, IpProtocol, IpVersion,
    Ipv4Address, Ipv4Cidr, Ipv6Address, Ipv6Cidr, TcpControl, TcpSeqNumber,
};
use core::fmt;

mod dhcp;
mod dns;

pub use dhcp::{Dhcp, Lease, LeaseEvent};
pub use dns::{Dns, DnsFailure, DnsQuery, DnsResult};

/// The octets of the longest frame.
pub const FRAME_ROOM: usize = sys::IFACE_FRAME_ROOM;

/// A buffer for a frame.
pub type Frame = [u8; FRAME_ROOM];

/// Why a call was refused. It has changed nothing.
#[derive(Clone, Copy, Debug, PartialEq, Eq)]
#[non_exhaustive]
pub enum Error {
    /// A hardware address that isn't of the device's medium, a hop limit of 0, or a setting of connections that is out of
    /// range.
    BadArgument,
    /// The allocator refused.
    NoMemory,
    /// Frames too short for IP packets of 576 octets, or longer than [`FRAME_ROOM`].
    BadMtu,
    /// A hardware address or an own address that can't be one.
    NotUnicast,
    /// A destination that is unspecified, an address that is no group's, or a socket's own that is a group's.
    BadAddress,
    /// No such address, route or query, no own address, no ends of a connection, or no hardware addresses.
    NotThere,
    /// There is no room for another address, route or group, or for so many addresses; all sockets are open, or each place
    /// has a connection or a query; a list of more than three servers.
    TableFull,
    /// No socket of this kind is open by this number, or no connection has this name.
    NoSocket,
    /// Port 0.
    BadPort,
    /// A packet that is longer than is ever sent.
    TooLong,
    /// The socket's queue has no room for the packet: frames that are sent make some.
    QueueFull,
    /// No packet came, or no connection waits.
    Empty,
    /// The packet that came is longer than the buffer. It stays.
    NoRoom,
    /// A timeout for fragments that is zero, or longer than a day.
    BadTimeout,
    /// A connection of TCP has these ends.
    InUse,
    /// A text that is no name: a label of it is empty or longer than 63 octets, or all of it longer than 253.
    BadName,
    /// There is no server of names to ask.
    NoServer,
    /// No network and no route of the host has the destination.
    NoRoute,
    /// There are no secrets for connections of TCP: none are set, and without the feature `std` there is no source of them.
    NoSecrets,
    /// The library isn't of the header that this crate was made from, so it makes no host. `fresh.sh` tries it.
    OtherVersion {
        /// The version of the header that this crate was made from: `IFACE_VERSION`.
        own: u32,
        /// The version of the header that the library was built with: `iface_version()`. `None` with the feature
        /// `rust-heap`, whose library doesn't tell it.
        library: Option<u32>,
    },
    /// A code of the library that can't come of what this crate passes.
    Other(u32),
}

impl fmt::Display for Error {
    fn fmt(&self, f: &mut fmt::Formatter<'_>) -> fmt::Result {
        f.write_str(match *self {
            Error::BadArgument => {
                "the hardware address isn't of the device's medium, the hop limit is 0, or a setting is out of range"
            }
            Error::NoMemory => "no memory",
            Error::BadMtu => "frames of this length are not supported",
            Error::NotUnicast => "the address is not unicast",
            Error::BadAddress => {
                "the address is unspecified, no group's where one is wanted, or a socket's own and a group's"
            }
            Error::NotThere => "no such address, route, query or ends, or no hardware addresses",
            Error::TableFull => "the table is full",
            Error::NoSocket => "no such socket or connection is open",
            Error::BadPort => "the port is 0",
            Error::TooLong => "the packet is too long to be sent",
            Error::QueueFull => "the queue is full",
            Error::Empty => "no packet or connection came",
            Error::NoRoom => "the buffer is shorter than the packet",
            Error::BadTimeout => "the timeout is zero, or longer than a day",
            Error::InUse => "a connection has these ends",
            Error::BadName => "the text is no name",
            Error::NoServer => "there is no server to ask",
            Error::NoRoute => "there is no route",
            Error::NoSecrets => "there are no secrets for connections",
            Error::OtherVersion { own, library: Some(library) } => {
                return write!(f, "the crate is made for {}, and the library is {}", Version(own), Version(library));
            }
            Error::OtherVersion { own, library: None } => {
                return write!(f, "the crate is made for {}, and the library isn't", Version(own));
            }
            Error::Other(code) => return write!(f, "code {code}"),
        })
    }
}

impl core::error::Error for Error {}

/// A version of the header, an octet each.
struct Version(u32);

impl fmt::Display for Version {
    fn fmt(&self, f: &mut fmt::Formatter<'_>) -> fmt::Result {
        let [major, minor, patch, header] = self.0.to_be_bytes();
        write!(f, "version {major}.{minor}.{patch} with header {header}")
    }
}

#[inline]
fn answer(code: u32) -> Result<(), Error> {
    if code == sys::IFACE_OK { Ok(()) } else { Err(refusal(code)) }
}

/// What a code says that isn't `IFACE_OK`.
fn refusal(code: u32) -> Error {
    match code {
        sys::IFACE_BAD_ARGUMENT => Error::BadArgument,
        sys::IFACE_NO_MEMORY => Error::NoMemory,
        sys::IFACE_BAD_MTU => Error::BadMtu,
        sys::IFACE_NOT_UNICAST => Error::NotUnicast,
        sys::IFACE_BAD_ADDRESS => Error::BadAddress,
        sys::IFACE_NOT_THERE => Error::NotThere,
        sys::IFACE_TABLE_FULL => Error::TableFull,
        sys::IFACE_NO_SOCKET => Error::NoSocket,
        sys::IFACE_BAD_PORT => Error::BadPort,
        sys::IFACE_TOO_LONG => Error::TooLong,
        sys::IFACE_QUEUE_FULL => Error::QueueFull,
        sys::IFACE_EMPTY => Error::Empty,
        sys::IFACE_NO_ROOM => Error::NoRoom,
        sys::IFACE_BAD_TIMEOUT => Error::BadTimeout,
        sys::IFACE_IN_USE => Error::InUse,
        sys::IFACE_BAD_NAME => Error::BadName,
        sys::IFACE_NO_SERVER => Error::NoServer,
        sys::IFACE_NO_ROUTE => Error::NoRoute,
        sys::IFACE_BAD_VERSION => Error::OtherVersion { own: sys::IFACE_VERSION, library: library_version() },
        other => Error::Other(other),
    }
}

/// The version of the header that the library was built with. The library without a heap doesn't tell it.
#[cold]
fn library_version() -> Option<u32> {
    #[cfg(feature = "rust-heap")]
    return None;
    // SAFETY: it takes nothing, and needs nothing.
    #[cfg(not(feature = "rust-heap"))]
    return Some(unsafe { sys::iface_version() });
}

/// `None` for a queue without a packet, or a socket that doesn't wait.
fn unless_empty(done: Result<(), Error>) -> Result<bool, Error> {
    match done {
        Ok(()) => Ok(true),
        Err(Error::Empty) => Ok(false),
        Err(error) => Err(error),
    }
}

/// What stands where the library is to write an address.
const NO_ADDRESS: sys::iface_address = sys::IFACE_ANY;

#[inline]
fn to_c(address: &IpAddress) -> sys::iface_address {
    let mut own = NO_ADDRESS;
    match address {
        IpAddress::Ipv4(address) => {
            own.version = 4;
            own.octets[..4].copy_from_slice(&address.octets());
        }
        IpAddress::Ipv6(address) => {
            own.version = 6;
            own.octets = address.octets();
        }
    }
    own
}

#[inline]
fn from_c(address: &sys::iface_address) -> IpAddress {
    let [a, b, c, d, ..] = address.octets;
    match address.version {
        6 => IpAddress::Ipv6(address.octets.into()),
        _ => IpAddress::v4(a, b, c, d),
    }
}

#[inline]
fn end_to_c(end: &IpEndpoint) -> sys::iface_endpoint {
    sys::iface_endpoint { address: to_c(&end.addr), port: end.port }
}

#[inline]
fn end_from_c(end: &sys::iface_endpoint) -> IpEndpoint {
    IpEndpoint { addr: from_c(&end.address), port: end.port }
}

fn listen_to_c(end: &IpListenEndpoint) -> sys::iface_endpoint {
    sys::iface_endpoint { address: end.addr.as_ref().map_or(sys::IFACE_ANY, to_c), port: end.port }
}

#[inline]
fn cidr_to_c(cidr: &IpCidr) -> sys::iface_cidr {
    sys::iface_cidr { address: to_c(&cidr.address()), prefix_len: cidr.prefix_len() }
}

#[inline]
fn cidr_from_c(address: &sys::iface_address, prefix_len: u8) -> IpCidr {
    match from_c(address) {
        IpAddress::Ipv4(address) => IpCidr::Ipv4(Ipv4Cidr::new(address, prefix_len.min(32))),
        IpAddress::Ipv6(address) => IpCidr::Ipv6(Ipv6Cidr::new(address, prefix_len.min(128))),
    }
}

/// The instant that the library writes, where it isn't the one that stands for none.
#[inline]
fn until_from_c(until: i64) -> Option<Instant> {
    (until != sys::IFACE_NEVER).then(|| Instant::from_micros_const(until))
}

/// How a host is to be made: [`Settings::new`] has what most programs want.
#[derive(Clone, Copy, Debug, PartialEq, Eq)]
#[non_exhaustive]
pub struct Settings {
    /// The seed of its random words, which need not be secret: another for each host and each start.
    pub random_seed: u64,
    /// Its hardware address, and with it its medium.
    pub hardware_addr: HardwareAddress,
    /// The octets of the longest frame: on Ethernet 590 to 1514 with its header, else 576 to 1514.
    pub frame_len: u32,
    /// Whether it takes addresses and routes from IPv6 routers (RFC 4862).
    pub slaac: bool,
    /// How many sockets may be open at once. Memory for their places is taken at once.
    pub sockets: u32,
    /// How many neighbours it knows at once, of both versions together, in memory that is taken at once. 0 is four,
    /// without such memory. A new neighbour replaces the one whose instant is the first.
    pub neighbors: u32,
    /// For how many own addresses there is room, those from routers included: 4 to 16. Less is 4, more is 16.
    pub addresses: u32,
    /// For how many routes there is room, at most 32, in memory that is taken at once. 0 is four, without such memory.
    pub routes: u32,
    /// For how many groups there is room, at most 16. On Ethernet the solicited-node groups of own IPv6 addresses are
    /// among them.
    pub groups: u32,
    /// How many prefixes of routers are kept, at most 8.
    pub prefixes: u32,
    /// How many routers are kept, at most 8.
    pub routers: u32,
    /// How many packets in fragments are put together at a time, in memory that is taken at once. 0 is two, without such
    /// memory.
    pub fragmented: u32,
    /// How long a packet waits for a neighbour that doesn't answer, before it is given up. Zero is for ever: then one
    /// such packet stops those behind it for neighbours that aren't known.
    pub patience: Duration,
    /// How long fragments of a packet wait for the others: not zero, at most a day.
    pub reassembly_timeout: Duration,
    /// The instant at which it begins.
    pub start: Instant,
    /// Which checksums it verifies and computes.
    pub checksum: ChecksumCapabilities,
    /// How many frames the link takes one after the other: the window in a segment of TCP is at most what so many
    /// carry. `None` sets no bound, and so does 0.
    pub burst: Option<u32>,
    /// The guard in front of it, if there is one. Without hardware addresses it does nothing.
    pub guard: Option<Guard>,
}

/// A configuration, and room behind it for the longer one of another library: that is refused only when a host is made.
#[repr(C)]
struct Configured<C> {
    config: C,
    room: [u64; 50],
}

impl Settings {
    /// What `iface_config_init` writes: frames of 1514 octets, 8 sockets, room for 128 neighbours, 8 addresses, 8 routes and
    /// 16 groups, 4 prefixes, 4 routers and 16 packets in fragments, no addresses from routers, a patience of three
    /// seconds, ten seconds for fragments, the start [`Instant::ZERO`], all checksums its own, the seed 0, and a guard.
    pub fn new(hardware_addr: HardwareAddress) -> Settings {
        let config = sys::iface_config {
            seed: 0,
            patience: 0,
            reassembly_timeout: 0,
            start: 0,
            frame_len: 0,
            sockets: 0,
            neighbors: 0,
            addresses: 0,
            routes: 0,
            groups: 0,
            prefixes: 0,
            routers: 0,
            fragmented: 0,
            burst: 0,
            hardware_address: [0; 6],
            medium: 0,
            slaac: 0,
            checksums: ChecksumCapabilities::default().to_c(),
            guard: Guard::OFF,
        };
        let mut configured = Configured { config, room: [0; 50] };
        // SAFETY: the pointer is that of a reference to a whole configuration, and to 400 octets behind it, which may
        // be written.
        unsafe { sys::iface_config_init((&raw mut configured).cast()) };
        let config = configured.config;
        Settings {
            random_seed: config.seed,
            hardware_addr,
            frame_len: config.frame_len,
            slaac: config.slaac != 0,
            sockets: config.sockets,
            neighbors: config.neighbors,
            addresses: config.addresses,
            routes: config.routes,
            groups: config.groups,
            prefixes: config.prefixes,
            routers: config.routers,
            fragmented: config.fragmented,
            patience: Duration::from_micros(config.patience),
            reassembly_timeout: Duration::from_micros(config.reassembly_timeout),
            start: Instant::from_micros_const(config.start),
            checksum: ChecksumCapabilities::default(),
            burst: (config.burst != 0).then_some(config.burst),
            guard: Guard::from_c(config.guard),
        }
    }

    fn to_c(self) -> sys::iface_config {
        let (medium, hardware_address) = match self.hardware_addr {
            HardwareAddress::Ethernet(EthernetAddress(octets)) => (sys::IFACE_ETHERNET, octets),
            HardwareAddress::Ip => (sys::IFACE_IP, [0; 6]),
        };
        sys::iface_config {
            seed: self.random_seed,
            patience: self.patience.total_micros(),
            reassembly_timeout: self.reassembly_timeout.total_micros(),
            start: self.start.total_micros(),
            frame_len: self.frame_len,
            sockets: self.sockets,
            neighbors: self.neighbors,
            addresses: self.addresses,
            routes: self.routes,
            groups: self.groups,
            prefixes: self.prefixes,
            routers: self.routers,
            fragmented: self.fragmented,
            burst: self.burst.unwrap_or(0),
            hardware_address,
            medium,
            slaac: u8::from(self.slaac),
            checksums: self.checksum.to_c(),
            guard: self.guard.map_or(Guard::OFF, Guard::to_c),
        }
    }
}

/// A route: packets to a network go by a router.
#[derive(Clone, Copy, Debug, PartialEq, Eq)]
pub struct Route {
    /// The network.
    pub cidr: IpCidr,
    /// The router.
    pub via_router: IpAddress,
    /// No route is chosen by it, as in smoltcp. The library doesn't keep it: it is `None` in a route that is read.
    pub preferred_until: Option<Instant>,
    /// The instant until which the route is used, which is included. `None` is for ever.
    pub expires_at: Option<Instant>,
}

const IPV4_DEFAULT: IpCidr = IpCidr::Ipv4(Ipv4Cidr::new(Ipv4Address::UNSPECIFIED, 0));
const IPV6_DEFAULT: IpCidr = IpCidr::Ipv6(Ipv6Cidr::new(Ipv6Address::UNSPECIFIED, 0));

impl Route {
    /// The route to 0.0.0.0/0 by a router, for ever.
    pub fn new_ipv4_gateway(gateway: Ipv4Address) -> Route {
        Route { cidr: IPV4_DEFAULT, via_router: gateway.into(), preferred_until: None, expires_at: None }
    }

    /// The route to ::/0 by a router, for ever.
    pub fn new_ipv6_gateway(gateway: Ipv6Address) -> Route {
        Route { cidr: IPV6_DEFAULT, via_router: gateway.into(), preferred_until: None, expires_at: None }
    }

    /// Whether it is a default route of IPv4.
    pub fn is_ipv4_gateway(&self) -> bool {
        self.cidr == IPV4_DEFAULT
    }

    /// Whether it is a default route of IPv6.
    pub fn is_ipv6_gateway(&self) -> bool {
        self.cidr == IPV6_DEFAULT
    }
}

/// A neighbour whose hardware address is known.
#[derive(Clone, Copy, Debug, PartialEq, Eq)]
#[non_exhaustive]
pub struct Neighbor {
    /// Its address.
    pub protocol_addr: IpAddress,
    /// Its address on Ethernet.
    pub hardware_addr: EthernetAddress,
    /// The instant from which the latter isn't known any more.
    pub expires_at: Instant,
}

/// How much a queue of a socket holds.
#[derive(Clone, Copy, Debug, PartialEq, Eq)]
pub struct Room {
    /// How many packets.
    pub packets: u32,
    /// How many octets of them, together.
    pub octets: u32,
}

/// How much the two queues of a socket hold.
#[derive(Clone, Copy, Debug, PartialEq, Eq)]
pub struct Rooms {
    /// That for what comes.
    pub received: Room,
    /// That for what goes.
    pub to_send: Room,
}

impl Rooms {
    /// So many packets in each, with so many octets together.
    pub const fn new(packets: u32, octets: u32) -> Rooms {
        let room = Room { packets, octets };
        Rooms { received: room, to_send: room }
    }

    fn to_c(self) -> sys::iface_rooms {
        sys::iface_rooms {
            received_packets: self.received.packets,
            received_octets: self.received.octets,
            to_send_packets: self.to_send.packets,
            to_send_octets: self.to_send.octets,
        }
    }
}

/// A segment of TCP without its payload (RFC 9293, 3.1).
#[derive(Clone, Copy, Debug, PartialEq, Eq)]
pub struct Segment {
    /// Where it came from, or goes to.
    pub remote: IpEndpoint,
    /// What it does to its connection.
    pub control: TcpControl,
    /// Its sequence number.
    pub seq_number: TcpSeqNumber,
    /// Its acknowledgement number, if it has one.
    pub ack_number: Option<TcpSeqNumber>,
    /// Its window as in the header, not scaled.
    pub window_len: u16,
}

impl Segment {
    /// What stands where the library is to write a segment.
    const NONE: sys::iface_segment = sys::iface_segment {
        remote: sys::iface_endpoint { address: NO_ADDRESS, port: 0 },
        seq: 0,
        ack: 0,
        window: 0,
        control: sys::IFACE_TCP_DATA,
        has_ack: 0,
    };

    fn to_c(self) -> sys::iface_segment {
        sys::iface_segment {
            remote: end_to_c(&self.remote),
            seq: self.seq_number.0 as u32,
            ack: self.ack_number.map_or(0, |number| number.0 as u32),
            window: self.window_len,
            control: match self.control {
                TcpControl::None => sys::IFACE_TCP_DATA,
                TcpControl::Psh => sys::IFACE_TCP_PSH,
                TcpControl::Syn => sys::IFACE_TCP_SYN,
                TcpControl::Fin => sys::IFACE_TCP_FIN,
                TcpControl::Rst => sys::IFACE_TCP_RST,
            },
            has_ack: u8::from(self.ack_number.is_some()),
        }
    }

    fn from_c(segment: &sys::iface_segment) -> Segment {
        Segment {
            remote: end_from_c(&segment.remote),
            control: match segment.control {
                sys::IFACE_TCP_PSH => TcpControl::Psh,
                sys::IFACE_TCP_SYN => TcpControl::Syn,
                sys::IFACE_TCP_FIN => TcpControl::Fin,
                sys::IFACE_TCP_RST => TcpControl::Rst,
                _ => TcpControl::None,
            },
            seq_number: TcpSeqNumber(segment.seq as i32),
            ack_number: (segment.has_ack != 0).then_some(TcpSeqNumber(segment.ack as i32)),
            window_len: segment.window,
        }
    }
}

/// What waits in a queue of a socket, and what it holds at most.
#[derive(Clone, Copy, Debug, PartialEq, Eq)]
#[non_exhaustive]
pub struct Queue {
    /// How many packets wait.
    pub packets: u32,
    /// How many octets they have together.
    pub octets: u32,
    /// How many packets it holds at most.
    pub most_packets: u32,
    /// How many octets they have together at most.
    pub most_octets: u32,
    /// How many octets the first packet has. `None` where none waits.
    pub first: Option<u32>,
}

impl Queue {
    const NONE: sys::iface_queue =
        sys::iface_queue { packets: 0, octets: 0, most_packets: 0, most_octets: 0, first: 0 };

    fn from_c(queue: &sys::iface_queue) -> Queue {
        let sys::iface_queue { packets, octets, most_packets, most_octets, first } = *queue;
        Queue { packets, octets, most_packets, most_octets, first: (packets != 0).then_some(first) }
    }
}

/// What waits in the two queues of a socket.
#[derive(Clone, Copy, Debug, PartialEq, Eq)]
#[non_exhaustive]
pub struct Queues {
    /// What was received.
    pub received: Queue,
    /// What is to be sent.
    pub to_send: Queue,
}

/// What a host counted since it was made. A number stays at the greatest one.
#[derive(Clone, Copy, Debug, Default, PartialEq, Eq)]
#[non_exhaustive]
pub struct Counters {
    /// Frames that it took.
    pub frames_in: u64,
    /// Frames that it wrote, in response or to be sent next.
    pub frames_out: u64,
    /// Packets that were given up, of all sockets.
    pub given_up: u64,
    /// How often memory for a frame was refused in the middle of a round: what was to be sent waits.
    pub no_memory: u64,
}

/// A host on a network: the library's own calls. It needs no allocator in Rust, and goes from thread to thread.
///
/// ```
/// # fn main() -> Result<(), fumitorygate::Error> {
/// # let (now, frame, transmit) = (Instant::ZERO, [0; 60], |_: &[u8]| ());
/// use fumitorygate::{FRAME_ROOM, Host, Rooms, Settings, time::Instant, wire::EthernetAddress};
///
/// let mut settings = Settings::new(EthernetAddress([2, 0, 0, 0, 0, 1]).into());
/// settings.random_seed = 0x5eed;
/// let mut host = Host::new(&settings)?;
/// host.add_address("192.168.69.1/24".parse().unwrap())?;
/// let socket = host.udp_open(7.into(), Rooms::new(4, 4096))?;
///
/// // For each frame that came:
/// let (mut out, mut payload) = ([0; FRAME_ROOM], [0; 4096]);
/// if let Some(reply) = host.receive(now, &frame, &mut out)? {
///     transmit(reply);
/// }
/// while let Ok((length, remote)) = host.udp_receive(socket, &mut payload) {
///     let _ = host.udp_send(socket, remote, &payload[..length]);
/// }
/// while let Some(frame) = host.next(now, &mut out)? {
///     transmit(frame);
/// }
/// let wake = host.poll_at(now);
/// # Ok(())
/// # }
/// ```
///
/// One call at a time, whatever safe code tries. It can't be shared:
///
/// ```compile_fail,E0277
/// fn shared<T: Sync>() {}
/// shared::<fumitorygate::Host>();
/// ```
///
/// ```compile_fail,E0596
/// fn called(host: &fumitorygate::Host) {
///     let _ = host.close(0);
/// }
/// ```
///
/// lent to two threads:
///
/// ```compile_fail,E0499
/// fn lent(host: &mut fumitorygate::Host) {
///     std::thread::scope(|scope| {
///         scope.spawn(|| host.close(0));
///         scope.spawn(|| host.close(1));
///     });
/// }
/// ```
///
/// copied:
///
/// ```compile_fail,E0382
/// fn twice(host: fumitorygate::Host) -> (fumitorygate::Host, fumitorygate::Host) {
///     (host, host)
/// }
/// ```
///
/// ```compile_fail,E0599
/// fn twice(host: &fumitorygate::Host) -> fumitorygate::Host {
///     Clone::clone(host).clone()
/// }
/// fn cloned(host: fumitorygate::Host) -> fumitorygate::Host {
///     host.clone()
/// }
/// ```
///
/// made otherwise, or taken apart:
///
/// ```compile_fail,E0451
/// let host = fumitorygate::Host { raw: fumitorygate::sys::iface::NONE };
/// ```
///
/// ```compile_fail,E0616
/// fn handle(host: &mut fumitorygate::Host) -> &mut fumitorygate::sys::iface {
///     &mut host.raw
/// }
/// ```
///
/// called while a frame of it is still read:
///
/// ```compile_fail,E0502
/// use fumitorygate::{Frame, Host, time::Instant};
/// fn in_place(host: &mut Host, frame: &mut Frame) {
///     let _ = host.receive(Instant::ZERO, &frame[..], frame);
/// }
/// ```
///
/// ```compile_fail,E0506
/// use fumitorygate::{Frame, Host, time::Instant};
/// fn overwritten(host: &mut Host, frame: &mut Frame) -> u8 {
///     let sent = host.next(Instant::ZERO, frame).unwrap();
///     frame[0] = 0;
///     sent.map_or(0, |octets| octets[0])
/// }
/// ```
///
/// ```compile_fail,E0499
/// use fumitorygate::{Frame, Host, time::Instant};
/// fn two_frames<'f>(host: &mut Host, out: &'f mut Frame) -> (Option<&'f [u8]>, Option<&'f [u8]>) {
///     (host.next(Instant::ZERO, out).unwrap(), host.next(Instant::ZERO, out).unwrap())
/// }
/// ```
///
/// given a short buffer, or used when it is gone:
///
/// ```compile_fail,E0308
/// fn short(host: &mut fumitorygate::Host) {
///     let _ = host.next(fumitorygate::time::Instant::ZERO, &mut [0; 1513]);
/// }
/// ```
///
/// ```compile_fail,E0382
/// fn freed(mut host: fumitorygate::Host) {
///     drop(host);
///     let _ = host.close(0);
/// }
/// ```
///
/// ```compile_fail,E0505
/// fn moved(host: fumitorygate::Host) {
///     let mut host = host;
///     let lent = &mut host;
///     drop(host);
///     let _ = lent.close(0);
/// }
/// ```
///
/// Nor is the library called beside it without `unsafe`, by a handle of one's own or a copy of one:
///
/// ```compile_fail,E0133
/// let mut handle = fumitorygate::sys::iface::NONE;
/// fumitorygate::sys::iface_free(&mut handle);
/// ```
///
/// ```compile_fail,E0382
/// fn twice(handle: fumitorygate::sys::iface) -> [fumitorygate::sys::iface; 2] {
///     [handle, handle]
/// }
/// ```
///
/// ```compile_fail,E0277
/// fn crosses<T: Send>() {}
/// crosses::<fumitorygate::sys::iface>();
/// ```
///
/// It does go to another thread:
///
/// ```
/// fn crosses<T: Send>() {}
/// crosses::<fumitorygate::Host>();
/// ```
#[derive(Debug)]
pub struct Host {
    raw: sys::iface,
}

// SAFETY: `iface.h` says that each call may be in another thread, and that two handles share nothing. No method takes
// `&self`.
unsafe impl Send for Host {}

impl Drop for Host {
    fn drop(&mut self) {
        // SAFETY: `raw` is a handle of the library's, as each call leaves it, and isn't used after this.
        let _ = unsafe { sys::iface_free(&mut self.raw) };
    }
}

/// A call of the library on a host's handle. Its pointers are all made from references or slices in the call itself.
macro_rules! call {
    ($host:ident . $name:ident ( $($argument:expr),* )) => {
        // SAFETY: the handle is the library's and borrowed for this call. Pointers and lengths are those of references
        // and slices, so they are not null, are as long as is said, and don't overlap where one is written.
        answer(unsafe { sys::$name(&mut $host.raw, $($argument),*) })
    };
}

mod streams;
pub use streams::{Secrets, Stream, StreamEnding, StreamSettings, StreamState, Streams};

impl Host {
    /// Makes a host.
    ///
    /// # Errors
    /// [`Error::OtherVersion`], [`Error::NotUnicast`] (the hardware address), [`Error::BadMtu`], [`Error::BadTimeout`],
    /// [`Error::NoMemory`].
    pub fn new(settings: &Settings) -> Result<Host, Error> {
        let mut host = Host { raw: sys::iface::NONE };
        call!(host.iface_new(&settings.to_c()))?;
        Ok(host)
    }

    /// Adds an own address with its network behind the others, and forgets all neighbours.
    ///
    /// # Errors
    /// [`Error::TableFull`] if there is no room for another, [`Error::NotUnicast`] if it is neither unicast nor unspecified.
    #[inline]
    pub fn add_address(&mut self, cidr: IpCidr) -> Result<(), Error> {
        call!(self.iface_add_address(&to_c(&cidr.address()), cidr.prefix_len()))
    }

    /// Takes out the first own address that is this one with this prefix, and forgets all neighbours.
    ///
    /// # Errors
    /// [`Error::NotThere`].
    #[inline]
    pub fn remove_address(&mut self, cidr: IpCidr) -> Result<(), Error> {
        call!(self.iface_remove_address(&to_c(&cidr.address()), cidr.prefix_len()))
    }

    /// Makes a list its own addresses, with their networks, and forgets all neighbours.
    ///
    /// # Errors
    /// [`Error::TableFull`] if there is no room for so many, [`Error::NotUnicast`] if one of them is neither unicast nor
    /// unspecified.
    #[inline]
    pub fn set_addresses(&mut self, cidrs: &[IpCidr]) -> Result<(), Error> {
        let mut list = [sys::iface_cidr { address: NO_ADDRESS, prefix_len: 0 }; 16];
        let list = list.get_mut(..cidrs.len()).ok_or(Error::TableFull)?;
        for (place, cidr) in list.iter_mut().zip(cidrs) {
            *place = cidr_to_c(cidr);
        }
        call!(self.iface_set_addresses(list.as_ptr(), list.len()))
    }

    /// The own address at an index of their list, those from routers included. `None` beyond the last one.
    #[inline]
    pub fn address_at(&mut self, index: u32) -> Option<IpCidr> {
        let (mut address, mut prefix_len) = (NO_ADDRESS, 0);
        call!(self.iface_address_at(index, &mut address, &mut prefix_len)).ok()?;
        Some(cidr_from_c(&address, prefix_len))
    }

    /// The link-local address that a hardware address makes: fe80::/64 with its modified EUI-64 (RFC 4291, 2.5.1 and
    /// appendix A; RFC 2464, 5). It needs no host.
    ///
    /// ```
    /// use fumitorygate::{Host, wire::{EthernetAddress, IpAddress, IpCidr}};
    ///
    /// let hardware_address = EthernetAddress([0x34, 0x56, 0x78, 0x9a, 0xbc, 0xde]);
    /// let link_local = Host::link_local(hardware_address)?;
    /// assert_eq!(link_local.to_string(), "fe80::3656:78ff:fe9a:bcde");
    /// let own = IpCidr::new(IpAddress::Ipv6(link_local), 64);
    /// # assert_eq!(own.to_string(), "fe80::3656:78ff:fe9a:bcde/64");
    /// # Ok::<(), fumitorygate::Error>(())
    /// ```
    ///
    /// # Errors
    /// [`Error::NotUnicast`] if the hardware address is a group's.
    pub fn link_local(hardware_address: EthernetAddress) -> Result<Ipv6Address, Error> {
        let mut address = NO_ADDRESS;
        // SAFETY: both pointers are those of references: to six octets, and to an address that is written.
        answer(unsafe { sys::iface_link_local(hardware_address.0.as_ptr(), &mut address) })?;
        Ok(address.octets.into())
    }

    /// Joins a group: from now on packets to it are taken, and routers are told of it. On Ethernet the solicited-node
    /// groups of own addresses take room as well.
    ///
    /// # Errors
    /// [`Error::BadAddress`] if it is no group's, [`Error::TableFull`] if there is no room for another.
    #[inline]
    pub fn join_group(&mut self, group: IpAddress) -> Result<(), Error> {
        call!(self.iface_join_group(&to_c(&group)))
    }

    /// Leaves a group, if the host is in it.
    ///
    /// # Errors
    /// [`Error::BadAddress`] if it is no group's.
    #[inline]
    pub fn leave_group(&mut self, group: IpAddress) -> Result<(), Error> {
        call!(self.iface_leave_group(&to_c(&group)))
    }

    /// Whether the host is in a group. Beside those that it joined, it is in 224.0.0.1 (RFC 1112), and in ff02::1 and
    /// the solicited-node groups of its own addresses (RFC 4291, 2.8). `false` too, if the address is no group's.
    #[inline]
    pub fn has_group(&mut self, group: IpAddress) -> bool {
        let mut is = 0;
        // It is refused only without a host, or by a version of IP that is none.
        let _ = call!(self.iface_has_group(&to_c(&group), &mut is));
        is != 0
    }

    /// Sets the host's address on Ethernet: frames are sent from it from now on, and those to it are taken. Frames that
    /// wait already are still from the one before. Own addresses and groups stay.
    ///
    /// # Errors
    /// [`Error::NotThere`] on a medium without hardware addresses, [`Error::NotUnicast`].
    #[inline]
    pub fn set_hardware_address(&mut self, address: EthernetAddress) -> Result<(), Error> {
        call!(self.iface_set_hardware_address(address.0.as_ptr()))
    }

    /// The host's address on Ethernet. `None` on a medium without hardware addresses.
    #[inline]
    pub fn hardware_address(&mut self) -> Option<EthernetAddress> {
        let mut octets = [0; 6];
        call!(self.iface_hardware_address(octets.as_mut_ptr())).ok()?;
        Some(EthernetAddress(octets))
    }

    /// Sets how long fragments of a packet wait for the others: not zero, at most a day. A packet whose first fragment
    /// came before waits as long as was set then.
    ///
    /// # Errors
    /// [`Error::BadTimeout`].
    #[inline]
    pub fn set_reassembly_timeout(&mut self, timeout: Duration) -> Result<(), Error> {
        call!(self.iface_set_reassembly_timeout(timeout.total_micros()))
    }

    /// How long fragments of a packet wait for the others.
    #[inline]
    pub fn reassembly_timeout(&mut self) -> Duration {
        let mut micros = 0;
        // It is refused only without a host.
        let _ = call!(self.iface_reassembly_timeout(&mut micros));
        Duration::from_micros(micros)
    }

    /// Sets whether addresses that are routed to the host count as its own; at first they don't. They are unicast
    /// addresses whose best route is by a router with an own address of the host.
    #[inline]
    pub fn set_any_ip(&mut self, any_ip: bool) {
        // It is refused only without a host.
        let _ = call!(self.iface_set_any_ip(u8::from(any_ip)));
    }

    /// Whether addresses that are routed to the host count as its own.
    #[inline]
    pub fn any_ip(&mut self) -> bool {
        let mut on = 0;
        // It is refused only without a host.
        let _ = call!(self.iface_any_ip(&mut on));
        on != 0
    }

    /// When own addresses and routes were last made those that routers advertise (RFC 4862). [`Instant::ZERO`] before
    /// the first time.
    #[inline]
    pub fn slaac_updated_at(&mut self) -> Instant {
        let mut at = 0;
        // It is refused only without a host.
        let _ = call!(self.iface_slaac_updated_at(&mut at));
        Instant::from_micros_const(at)
    }

    /// Sets the default route of the gateway's version, in place of the first one that is there, and puts it last.
    ///
    /// # Errors
    /// [`Error::TableFull`] if there is no room for another route, and none is replaced.
    #[inline]
    pub fn set_default_route(&mut self, gateway: IpAddress) -> Result<(), Error> {
        call!(self.iface_set_default_route(&to_c(&gateway)))
    }

    /// Adds a route to a network by a router, which may be of the other version. The longest prefix wins, of equal ones
    /// the last.
    ///
    /// # Errors
    /// [`Error::TableFull`] if there is no room for another route.
    #[inline]
    pub fn add_route(&mut self, network: IpCidr, router: IpAddress) -> Result<(), Error> {
        call!(self.iface_add_route(&to_c(&network.address()), network.prefix_len(), &to_c(&router)))
    }

    /// Adds a route as [`add_route`](Host::add_route) does, up to an end: it is used until that instant, which is
    /// included, and stays in the table behind it. With `None` it has no end.
    ///
    /// # Errors
    /// [`Error::TableFull`] if there is no room for another route.
    #[inline]
    pub fn add_route_until(&mut self, network: IpCidr, router: IpAddress, until: Option<Instant>) -> Result<(), Error> {
        let until = until.map_or(sys::IFACE_NEVER, |until| until.total_micros());
        call!(self.iface_add_route_until(&to_c(&network.address()), network.prefix_len(), &to_c(&router), until))
    }

    /// Takes out the first route to a network.
    ///
    /// # Errors
    /// [`Error::NotThere`].
    #[inline]
    pub fn remove_route(&mut self, network: IpCidr) -> Result<(), Error> {
        call!(self.iface_remove_route(&to_c(&network.address()), network.prefix_len()))
    }

    /// The route at an index of their list, those from routers included, and those whose end has passed. `None` beyond
    /// the last one.
    #[inline]
    pub fn route_at(&mut self, index: u32) -> Option<Route> {
        let (mut network, mut prefix_len, mut router, mut until) = (NO_ADDRESS, 0, NO_ADDRESS, sys::IFACE_NEVER);
        call!(self.iface_route_at(index, &mut network, &mut prefix_len, &mut router, &mut until)).ok()?;
        Some(Route {
            cidr: cidr_from_c(&network, prefix_len),
            via_router: from_c(&router),
            preferred_until: None,
            expires_at: until_from_c(until),
        })
    }

    /// The own address that packets to a destination are sent from, where their socket names none. Over IPv4 it is the
    /// first whose network has the destination, else the first one, and `None` where the host has none. Over IPv6 it is
    /// the best one (RFC 6724, 5: rules 1, 2 and 8), and ::1 where the host has none.
    ///
    /// ```
    /// # use fumitorygate::{Host, Settings, wire::HardwareAddress};
    /// # let mut host = Host::new(&Settings::new(HardwareAddress::Ip))?;
    /// for own in ["192.168.69.1/24", "10.0.0.1/8"] {
    ///     host.add_address(own.parse().unwrap())?;
    /// }
    /// assert_eq!(host.source_for("10.1.2.3".parse().unwrap()), "10.0.0.1".parse().ok());
    /// assert_eq!(host.source_for("8.8.8.8".parse().unwrap()), "192.168.69.1".parse().ok());
    /// # Ok::<(), fumitorygate::Error>(())
    /// ```
    #[inline]
    pub fn source_for(&mut self, remote: IpAddress) -> Option<IpAddress> {
        let mut source = NO_ADDRESS;
        call!(self.iface_source_for(&to_c(&remote), &mut source)).ok()?;
        Some(from_c(&source))
    }

    /// The neighbour at an index of their list: at most [`Settings::neighbors`] stand there, by rising instants, those
    /// whose instant has passed too. `None` beyond the last one, and without hardware addresses.
    #[inline]
    pub fn neighbor_at(&mut self, index: u32) -> Option<Neighbor> {
        let (mut address, mut octets, mut until) = (NO_ADDRESS, [0; 6], 0);
        call!(self.iface_neighbor_at(index, &mut address, octets.as_mut_ptr(), &mut until)).ok()?;
        Some(Neighbor {
            protocol_addr: from_c(&address),
            hardware_addr: EthernetAddress(octets),
            expires_at: Instant::from_micros_const(until),
        })
    }

    /// Opens a UDP socket at a port of one address, and returns the number that names it. It is at a port of any
    /// address, of both versions, if `local` has none, or 0.0.0.0 or ::. Of the sockets that may get a datagram the one
    /// with the least number gets it, and no other: to groups and broadcast addresses the first at the port.
    ///
    /// # Errors
    /// [`Error::BadPort`], [`Error::BadAddress`] if the address is a group's or 255.255.255.255, [`Error::TableFull`]
    /// if all of [`Settings::sockets`] are open, [`Error::NoMemory`].
    #[inline]
    pub fn udp_open(&mut self, local: IpListenEndpoint, rooms: Rooms) -> Result<u32, Error> {
        let mut socket = 0;
        call!(self.iface_udp_open(&listen_to_c(&local), &rooms.to_c(), &mut socket))?;
        Ok(socket)
    }

    /// Opens a raw socket for whole packets of a version of IP and a protocol, and returns the number that names it. Each
    /// such socket gets them, over IPv4 those for other hosts too. Their header is written anew: options, type of
    /// service, identification and DF are lost. The time to live stays.
    ///
    /// # Errors
    /// [`Error::TableFull`], [`Error::NoMemory`].
    #[inline]
    pub fn raw_open(&mut self, version: IpVersion, protocol: IpProtocol, rooms: Rooms) -> Result<u32, Error> {
        let number = match version {
            IpVersion::Ipv4 => 4,
            IpVersion::Ipv6 => 6,
        };
        let mut socket = 0;
        call!(self.iface_raw_open(number, protocol.into(), &rooms.to_c(), &mut socket))?;
        Ok(socket)
    }

    /// Opens an ICMP socket for echo messages of either version with an identifier, and returns the number that names
    /// it.
    ///
    /// # Errors
    /// [`Error::TableFull`], [`Error::NoMemory`].
    #[inline]
    pub fn icmp_open_ident(&mut self, ident: u16, rooms: Rooms) -> Result<u32, Error> {
        let mut socket = 0;
        call!(self.iface_icmp_open_ident(ident, &rooms.to_c(), &mut socket))?;
        Ok(socket)
    }

    /// Opens an ICMP socket for port unreachables that answer datagrams from this port, and returns the number that
    /// names it. Port 0 isn't refused.
    ///
    /// # Errors
    /// [`Error::TableFull`], [`Error::NoMemory`].
    #[inline]
    pub fn icmp_open_port(&mut self, port: u16, rooms: Rooms) -> Result<u32, Error> {
        let mut socket = 0;
        call!(self.iface_icmp_open_port(port, &rooms.to_c(), &mut socket))?;
        Ok(socket)
    }

    /// Opens a socket for segments of TCP (RFC 9293) at a port of one address, or of any as
    /// [`udp_open`](Host::udp_open)'s, from one end alone, or from each. The library hands segments in and out, and
    /// keeps no connection: it computes and verifies checksums, and answers by a reset what no socket takes. Of the
    /// sockets that are for a segment the one with the least number gets it.
    ///
    /// # Errors
    /// [`Error::BadPort`], for `remote` too; [`Error::BadAddress`] if the own address is a group's or 255.255.255.255,
    /// or the remote one unspecified; [`Error::TableFull`], [`Error::NoMemory`].
    #[inline]
    pub fn tcp_open(
        &mut self,
        local: IpListenEndpoint,
        remote: Option<IpEndpoint>,
        rooms: Rooms,
    ) -> Result<u32, Error> {
        let any = sys::iface_endpoint { address: sys::IFACE_ANY, port: 0 };
        let remote = remote.as_ref().map_or(any, end_to_c);
        let mut socket = 0;
        call!(self.iface_tcp_open(&listen_to_c(&local), &remote, &rooms.to_c(), &mut socket))?;
        Ok(socket)
    }

    /// Closes a socket of any kind: what waits in it is dropped.
    ///
    /// # Errors
    /// [`Error::NoSocket`].
    #[inline]
    pub fn close(&mut self, socket: u32) -> Result<(), Error> {
        call!(self.iface_close(socket))
    }

    /// Sets the hop limit of the packets that a socket sends from now on, those that wait among them: 64 at first.
    ///
    /// # Errors
    /// [`Error::BadArgument`] if it is 0, [`Error::NoSocket`], for a raw one too, whose packets have their own headers.
    #[inline]
    pub fn set_hop_limit(&mut self, socket: u32, hop_limit: u8) -> Result<(), Error> {
        call!(self.iface_set_hop_limit(socket, hop_limit))
    }

    /// The hop limit of the packets that a socket sends.
    ///
    /// # Errors
    /// [`Error::NoSocket`], for a raw one too.
    #[inline]
    pub fn hop_limit(&mut self, socket: u32) -> Result<u8, Error> {
        let mut hop_limit = 0;
        call!(self.iface_hop_limit(socket, &mut hop_limit))?;
        Ok(hop_limit)
    }

    /// What waits in the two queues of a socket of any kind, and what they hold at most.
    ///
    /// # Errors
    /// [`Error::NoSocket`].
    #[inline]
    pub fn queues(&mut self, socket: u32) -> Result<Queues, Error> {
        let (mut received, mut to_send) = (Queue::NONE, Queue::NONE);
        call!(self.iface_queues(socket, &mut received, &mut to_send))?;
        Ok(Queues { received: Queue::from_c(&received), to_send: Queue::from_c(&to_send) })
    }

    /// Queues a datagram. Over IPv4 it has at most 4096 octets with its headers (28), over IPv6 at most one packet of
    /// the link with its headers (48).
    ///
    /// # Errors
    /// [`Error::BadPort`], [`Error::BadAddress`], [`Error::TooLong`], [`Error::NoRoute`], [`Error::QueueFull`], [`Error::NoSocket`].
    #[inline]
    pub fn udp_send(&mut self, socket: u32, remote: IpEndpoint, payload: &[u8]) -> Result<(), Error> {
        call!(self.iface_udp_send(socket, &end_to_c(&remote), payload.as_ptr(), payload.len()))
    }

    /// Queues a message of ICMP, from its type on. One that is no echo message of the address's version is dropped
    /// later.
    ///
    /// # Errors
    /// [`Error::BadAddress`], [`Error::TooLong`], [`Error::NoRoute`], [`Error::QueueFull`], [`Error::NoSocket`].
    #[inline]
    pub fn icmp_send(&mut self, socket: u32, remote: IpAddress, message: &[u8]) -> Result<(), Error> {
        call!(self.iface_icmp_send(socket, &to_c(&remote), message.as_ptr(), message.len()))
    }

    /// Queues a packet with its header, which is written anew. One that isn't of the socket's version and protocol, or
    /// is too long, is dropped later.
    ///
    /// # Errors
    /// [`Error::QueueFull`], [`Error::NoSocket`].
    #[inline]
    pub fn raw_send(&mut self, socket: u32, packet: &[u8]) -> Result<(), Error> {
        call!(self.iface_raw_send(socket, packet.as_ptr(), packet.len()))
    }

    /// Queues a segment from the socket's port, with its payload. Over IPv4 it has at most 4096 octets with its headers
    /// (40), over IPv6 at most one packet of the link with its headers (60).
    ///
    /// # Errors
    /// [`Error::BadPort`], [`Error::BadAddress`], [`Error::TooLong`], [`Error::QueueFull`], [`Error::NoSocket`].
    #[inline]
    pub fn tcp_send(&mut self, socket: u32, segment: Segment, payload: &[u8]) -> Result<(), Error> {
        call!(self.iface_tcp_send(socket, &segment.to_c(), payload.as_ptr(), payload.len()))
    }

    /// Lets a TCP socket send nothing before this instant: [`Instant::ZERO`] at first.
    ///
    /// # Errors
    /// [`Error::NoSocket`].
    #[inline]
    pub fn tcp_hold(&mut self, socket: u32, until: Instant) -> Result<(), Error> {
        call!(self.iface_tcp_hold(socket, until.total_micros()))
    }

    /// Lets a TCP socket get no segment from now on: each that it would have got is answered by a reset, unless it is
    /// one. What waits in its queues stays.
    ///
    /// # Errors
    /// [`Error::NoSocket`].
    #[inline]
    pub fn tcp_abort(&mut self, socket: u32) -> Result<(), Error> {
        call!(self.iface_tcp_abort(socket))
    }

    /// Takes the first datagram that came: its length, and where it came from.
    ///
    /// # Errors
    /// [`Error::Empty`], [`Error::NoRoom`], [`Error::NoSocket`].
    #[inline]
    pub fn udp_receive(&mut self, socket: u32, out: &mut [u8]) -> Result<(usize, IpEndpoint), Error> {
        let (mut remote, mut length) = (sys::iface_endpoint { address: NO_ADDRESS, port: 0 }, 0);
        call!(self.iface_udp_receive(socket, &mut remote, out.as_mut_ptr(), out.len(), &mut length))?;
        Ok((length, end_from_c(&remote)))
    }

    /// The same, but the datagram stays.
    ///
    /// # Errors
    /// [`Error::Empty`], [`Error::NoRoom`], [`Error::NoSocket`].
    #[inline]
    pub fn udp_peek(&mut self, socket: u32, out: &mut [u8]) -> Result<(usize, IpEndpoint), Error> {
        let (mut remote, mut length) = (sys::iface_endpoint { address: NO_ADDRESS, port: 0 }, 0);
        call!(self.iface_udp_peek(socket, &mut remote, out.as_mut_ptr(), out.len(), &mut length))?;
        Ok((length, end_from_c(&remote)))
    }

    /// Takes the first message that came, from its type on: its length, and where it came from.
    ///
    /// # Errors
    /// [`Error::Empty`], [`Error::NoRoom`], [`Error::NoSocket`].
    #[inline]
    pub fn icmp_receive(&mut self, socket: u32, out: &mut [u8]) -> Result<(usize, IpAddress), Error> {
        let (mut remote, mut length) = (NO_ADDRESS, 0);
        call!(self.iface_icmp_receive(socket, &mut remote, out.as_mut_ptr(), out.len(), &mut length))?;
        Ok((length, from_c(&remote)))
    }

    /// The same, but the message stays.
    ///
    /// # Errors
    /// [`Error::Empty`], [`Error::NoRoom`], [`Error::NoSocket`].
    #[inline]
    pub fn icmp_peek(&mut self, socket: u32, out: &mut [u8]) -> Result<(usize, IpAddress), Error> {
        let (mut remote, mut length) = (NO_ADDRESS, 0);
        call!(self.iface_icmp_peek(socket, &mut remote, out.as_mut_ptr(), out.len(), &mut length))?;
        Ok((length, from_c(&remote)))
    }

    /// Takes the first packet that came, with its header: its length.
    ///
    /// # Errors
    /// [`Error::Empty`], [`Error::NoRoom`], [`Error::NoSocket`].
    #[inline]
    pub fn raw_receive(&mut self, socket: u32, out: &mut [u8]) -> Result<usize, Error> {
        let mut length = 0;
        call!(self.iface_raw_receive(socket, out.as_mut_ptr(), out.len(), &mut length))?;
        Ok(length)
    }

    /// The same, but the packet stays.
    ///
    /// # Errors
    /// [`Error::Empty`], [`Error::NoRoom`], [`Error::NoSocket`].
    #[inline]
    pub fn raw_peek(&mut self, socket: u32, out: &mut [u8]) -> Result<usize, Error> {
        let mut length = 0;
        call!(self.iface_raw_peek(socket, out.as_mut_ptr(), out.len(), &mut length))?;
        Ok(length)
    }

    /// Takes the first segment that came: the length of its payload, and its header.
    ///
    /// # Errors
    /// [`Error::Empty`], [`Error::NoRoom`], [`Error::NoSocket`].
    #[inline]
    pub fn tcp_receive(&mut self, socket: u32, out: &mut [u8]) -> Result<(usize, Segment), Error> {
        let (mut segment, mut length) = (Segment::NONE, 0);
        call!(self.iface_tcp_receive(socket, &mut segment, out.as_mut_ptr(), out.len(), &mut length))?;
        Ok((length, Segment::from_c(&segment)))
    }

    /// The same, but the segment stays.
    ///
    /// # Errors
    /// [`Error::Empty`], [`Error::NoRoom`], [`Error::NoSocket`].
    #[inline]
    pub fn tcp_peek(&mut self, socket: u32, out: &mut [u8]) -> Result<(usize, Segment), Error> {
        let (mut segment, mut length) = (Segment::NONE, 0);
        call!(self.iface_tcp_peek(socket, &mut segment, out.as_mut_ptr(), out.len(), &mut length))?;
        Ok((length, Segment::from_c(&segment)))
    }

    /// For whom the first packet of a socket waits, and since when, as of the last round. `None` if it doesn't wait.
    ///
    /// # Errors
    /// [`Error::NoSocket`].
    #[inline]
    pub fn waiting(&mut self, socket: u32) -> Result<Option<(IpAddress, Instant)>, Error> {
        let (mut remote, mut since) = (NO_ADDRESS, 0);
        let waits = unless_empty(call!(self.iface_waiting(socket, &mut remote, &mut since)))?;
        Ok(waits.then(|| (from_c(&remote), Instant::from_micros_const(since))))
    }

    /// The destination of the packet that a socket gave up last, once. `None` if none was given up since.
    ///
    /// # Errors
    /// [`Error::NoSocket`].
    #[inline]
    pub fn given_up(&mut self, socket: u32) -> Result<Option<IpAddress>, Error> {
        let mut remote = NO_ADDRESS;
        let gave_up = unless_empty(call!(self.iface_given_up(socket, &mut remote)))?;
        Ok(gave_up.then(|| from_c(&remote)))
    }

    /// How many packets all sockets gave up.
    #[inline]
    pub fn given_up_count(&mut self) -> u64 {
        let mut count = 0;
        // It is refused only without a host.
        let _ = call!(self.iface_given_up_count(&mut count));
        count
    }

    /// Takes a frame of any octets. What is to be sent in response, if anything, is the returned part of `out`.
    ///
    /// # Errors
    /// None that this crate knows of.
    #[inline]
    pub fn receive<'o>(&mut self, now: Instant, frame: &[u8], out: &'o mut Frame) -> Result<Option<&'o [u8]>, Error> {
        let (now, mut length) = (now.total_micros(), 0);
        call!(self.iface_receive(now, frame.as_ptr(), frame.len(), out.as_mut_ptr(), out.len(), &mut length))?;
        Ok(if length == 0 { None } else { out.get(..length) })
    }

    /// The next frame that is to be sent. `None`: none for now. Call it until then, and then ask
    /// [`poll_at`](Host::poll_at).
    ///
    /// # Errors
    /// [`Error::NoMemory`] before a round, if memory for a frame is refused.
    #[inline]
    pub fn next<'o>(&mut self, now: Instant, out: &'o mut Frame) -> Result<Option<&'o [u8]>, Error> {
        let mut length = 0;
        call!(self.iface_next(now.total_micros(), out.as_mut_ptr(), out.len(), &mut length))?;
        Ok(if length == 0 { None } else { out.get(..length) })
    }

    /// Whether a socket may have changed by frames that were taken and rounds that were made since this was last asked.
    /// It may have if a frame was taken that isn't empty, or if a round sent a packet of a socket, or dropped one as too
    /// long. One that is dropped when its socket is asked for it, without a source or of a kind that the socket doesn't
    /// send, isn't told of. What a socket gave up is told by [`given_up`](Host::given_up).
    #[inline]
    pub fn sockets_changed(&mut self) -> bool {
        let mut changed = 0;
        // It is refused only without a host.
        let _ = call!(self.iface_sockets_changed(&mut changed));
        changed != 0
    }

    /// What it counted since it was made.
    #[inline]
    pub fn counters(&mut self) -> Counters {
        let mut counted = sys::iface_counts { frames_in: 0, frames_out: 0, given_up: 0, no_memory: 0 };
        // It is refused only without a host.
        let _ = call!(self.iface_counters(&mut counted));
        Counters {
            frames_in: counted.frames_in,
            frames_out: counted.frames_out,
            given_up: counted.given_up,
            no_memory: counted.no_memory,
        }
    }

    /// How many frames its guard dropped, by the reason, and how many answers it held back.
    #[inline]
    pub fn guard_drops(&mut self) -> Drops {
        let mut drops = sys::iface_drops {
            own_address: 0,
            own_source: 0,
            pinned: 0,
            fragment: 0,
            loops: 0,
            echo_request: 0,
            error: 0,
            reset: 0,
        };
        // It is refused only without a host.
        let _ = call!(self.iface_guard_drops(&mut drops));
        Drops::from_c(drops)
    }

    /// Who sent the last frame that its guard dropped as claiming an own address, if there was one.
    #[inline]
    pub fn guard_conflict(&mut self) -> Option<Conflict> {
        let (mut octets, mut at) = ([0; 6], 0);
        call!(self.iface_guard_conflict(octets.as_mut_ptr(), &mut at)).ok()?;
        Some(Conflict { hardware_addr: EthernetAddress(octets), at: Instant::from_micros_const(at) })
    }

    /// Pins a neighbour to a hardware address, in place of the one that it is pinned to. The guard drops ARP packets and
    /// neighbour messages of it that tell another one. The host learns the address from the next message that tells this
    /// one, and asks for it as for any other.
    ///
    /// # Errors
    /// [`Error::NotUnicast`] if one of the two isn't unicast, [`Error::TableFull`] if eight others are pinned.
    #[inline]
    pub fn guard_pin(&mut self, addr: IpAddress, hardware_addr: EthernetAddress) -> Result<(), Error> {
        call!(self.iface_guard_pin(&to_c(&addr), hardware_addr.0.as_ptr()))
    }

    /// Pins a neighbour no more.
    ///
    /// # Errors
    /// [`Error::NotThere`] if it isn't pinned.
    #[inline]
    pub fn guard_unpin(&mut self, addr: IpAddress) -> Result<(), Error> {
        call!(self.iface_guard_unpin(&to_c(&addr)))
    }

    /// Who sent the last frame that its guard dropped for telling another hardware address of a pinned neighbour, if there
    /// was one.
    #[inline]
    pub fn guard_pinned_conflict(&mut self) -> Option<Conflict> {
        let (mut octets, mut at) = ([0; 6], 0);
        call!(self.iface_guard_pinned_conflict(octets.as_mut_ptr(), &mut at)).ok()?;
        Some(Conflict { hardware_addr: EthernetAddress(octets), at: Instant::from_micros_const(at) })
    }

    /// The instant at which [`next`](Host::next) is to be called again, if no frame comes before and no call changes
    /// the host. One that has passed, if something is due at once. `None`, if nothing is.
    #[inline]
    pub fn poll_at(&mut self, now: Instant) -> Option<Instant> {
        let mut at = sys::IFACE_NEVER;
        call!(self.iface_poll_at(now.total_micros(), &mut at)).ok()?;
        until_from_c(at)
    }
}

#[cfg(all(test, feature = "std"))]
mod tests {
    use super::{Error, refusal};
    use crate::sys;

    /// Of the header's codes seven can't come of what this crate passes: it has a host or none, connections or none, no
    /// client, and its instants are moments.
    #[test]
    fn each_code_has_its_error() {
        let of_hosts = [sys::IFACE_NO_HOST, sys::IFACE_HAS_HOST, sys::IFACE_BAD_MOMENT];
        let of_clients = [sys::IFACE_NO_CLIENT, sys::IFACE_HAS_CLIENT];
        let others = [&of_hosts[..], &of_clients, &[sys::IFACE_NO_STREAMS, sys::IFACE_HAS_STREAMS]].concat();
        for code in 1..=sys::IFACE_IN_USE {
            assert_eq!(refusal(code) == Error::Other(code), others.contains(&code));
        }
        let library = if cfg!(feature = "rust-heap") { None } else { Some(sys::IFACE_VERSION) };
        assert_eq!(refusal(sys::IFACE_BAD_VERSION), Error::OtherVersion { own: sys::IFACE_VERSION, library });
    }

    /// `iface.h`: a version is an octet each, 0.15.0 and the header's number.
    #[test]
    fn both_versions_are_told() {
        let told = |library| Error::OtherVersion { own: 0x000e_0001, library }.to_string();
        let both = ["version 0.14.0 with header 1", "version 0.15.0 with header 0"];
        assert_eq!(
            told(Some(0x000f_0000)),
            format!("the crate is made for {}, and the library is {}", both[0], both[1])
        );
        assert_eq!(told(None), format!("the crate is made for {}, and the library isn't", both[0]));
    }
}
