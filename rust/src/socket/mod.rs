//! Sockets: [`tcp`], [`udp`], [`icmp`] and [`raw`], and [`segment`] for a TCP of one's own; with the feature `socket-dhcpv4`
//! clients of DHCP, and with `socket-dns` those of DNS.
//!
//! A socket is open, if it is bound, while it is in a [`SocketSet`](crate::iface::SocketSet) that came to its interface.
//! Its queues are the library's then; what is sent before waits in the socket.
use crate::host::{Error, Host, Queue, Queues, Room, Rooms};
use crate::shared::Shared;
use crate::time::Instant;
use crate::wire::IpAddress;
use alloc::vec::Vec;
use core::fmt;
use core::marker::PhantomData;
#[cfg(feature = "async")]
use core::task::Waker;
use outbox::{Destination, Outbox};

#[cfg(feature = "socket-dhcpv4")]
pub mod dhcpv4;
#[cfg(feature = "socket-dns")]
pub mod dns;
pub mod icmp;
mod outbox;
pub mod raw;
pub mod segment;
pub mod tcp;
pub mod udp;

/// A socket of any kind.
#[derive(Debug)]
#[non_exhaustive]
pub enum Socket<'a> {
    /// A raw socket.
    Raw(raw::Socket<'a>),
    /// An ICMP socket.
    Icmp(icmp::Socket<'a>),
    /// A UDP socket.
    Udp(udp::Socket<'a>),
    /// A TCP socket.
    Tcp(tcp::Socket<'a>),
    /// A socket for segments of TCP.
    Segment(segment::Socket<'a>),
    /// A client of DHCP.
    #[cfg(feature = "socket-dhcpv4")]
    Dhcpv4(dhcpv4::Socket<'a>),
    /// A client of DNS.
    #[cfg(feature = "socket-dns")]
    Dns(dns::Socket<'a>),
}

impl Socket<'_> {
    /// Opens it at a host, if it is bound.
    pub(crate) fn attach(&mut self, host: &Shared) -> Result<(), Error> {
        match self {
            Socket::Raw(socket) => socket.core.attach(host),
            Socket::Icmp(socket) => socket.core.attach(host),
            Socket::Udp(socket) => socket.core.attach(host),
            Socket::Tcp(socket) => socket.attach(host),
            Socket::Segment(socket) => socket.core.attach(host),
            #[cfg(feature = "socket-dhcpv4")]
            Socket::Dhcpv4(socket) => socket.attach(host),
            #[cfg(feature = "socket-dns")]
            Socket::Dns(socket) => socket.attach(host),
        }
    }

    /// Wakes the tasks that wait for a packet, or for room, and have it.
    #[cfg(feature = "async")]
    pub(crate) fn wake(&mut self) {
        match self {
            Socket::Raw(socket) => socket.core.wake(),
            Socket::Icmp(socket) => socket.core.wake(),
            Socket::Udp(socket) => socket.core.wake(),
            Socket::Tcp(socket) => socket.wake(),
            Socket::Segment(socket) => socket.core.wake(),
            #[cfg(feature = "socket-dhcpv4")]
            Socket::Dhcpv4(socket) => socket.wake(),
            #[cfg(feature = "socket-dns")]
            Socket::Dns(socket) => socket.wake(),
        }
    }

    /// Closes it at its host. It stays bound. A TCP socket keeps its connection.
    pub(crate) fn detach(&mut self) {
        match self {
            Socket::Raw(socket) => socket.core.detach(),
            Socket::Icmp(socket) => socket.core.detach(),
            Socket::Udp(socket) => socket.core.detach(),
            Socket::Tcp(_) => {}
            Socket::Segment(socket) => socket.core.detach(),
            #[cfg(feature = "socket-dhcpv4")]
            Socket::Dhcpv4(socket) => socket.detach(),
            #[cfg(feature = "socket-dns")]
            Socket::Dns(socket) => socket.detach(),
        }
    }

    /// Queues the packets that wait, lets a client of DHCP or DNS do what is due, and tells whether it has an event, or a
    /// result.
    #[inline]
    pub(crate) fn step(&mut self, timestamp: Instant) -> bool {
        match self {
            #[cfg(feature = "socket-dhcpv4")]
            Socket::Dhcpv4(socket) => return socket.step(timestamp),
            #[cfg(feature = "socket-dns")]
            Socket::Dns(socket) => return socket.step(timestamp),
            Socket::Raw(socket) => socket.core.flush(),
            Socket::Icmp(socket) => socket.core.flush(),
            Socket::Udp(socket) => socket.core.flush(),
            Socket::Segment(socket) => socket.core.flush(),
            Socket::Tcp(_) => {}
        }
        let _ = timestamp;
        false
    }

    /// When it is to be polled, if no frame comes: a client of DHCP or DNS by its times, another socket at once if it has
    /// a packet that isn't queued.
    #[inline]
    pub(crate) fn poll_at(&self) -> Option<Instant> {
        match self {
            #[cfg(feature = "socket-dhcpv4")]
            Socket::Dhcpv4(socket) => socket.poll_at(),
            #[cfg(feature = "socket-dns")]
            Socket::Dns(socket) => socket.poll_at(),
            Socket::Raw(socket) => socket.core.poll_at(),
            Socket::Icmp(socket) => socket.core.poll_at(),
            Socket::Udp(socket) => socket.core.poll_at(),
            Socket::Segment(socket) => socket.core.poll_at(),
            Socket::Tcp(_) => None,
        }
    }
}

/// What a set can hold: a socket of one kind, or [`Socket`].
pub trait AnySocket<'a> {
    /// It as a socket of any kind.
    fn upcast(self) -> Socket<'a>;
    /// A socket as one of this kind, if it is.
    fn downcast<'c>(socket: &'c Socket<'a>) -> Option<&'c Self>
    where
        Self: Sized;
    /// A socket as one of this kind, if it is.
    fn downcast_mut<'c>(socket: &'c mut Socket<'a>) -> Option<&'c mut Self>
    where
        Self: Sized;
}

impl<'a> AnySocket<'a> for Socket<'a> {
    fn upcast(self) -> Socket<'a> {
        self
    }

    fn downcast<'c>(socket: &'c Socket<'a>) -> Option<&'c Socket<'a>> {
        Some(socket)
    }

    fn downcast_mut<'c>(socket: &'c mut Socket<'a>) -> Option<&'c mut Socket<'a>> {
        Some(socket)
    }
}

/// What smoltcp keeps beside each packet. Here it only counts.
#[derive(Clone, Copy, Debug, Default, PartialEq, Eq)]
pub struct PacketMetadata(());

impl PacketMetadata {
    /// One packet.
    pub const EMPTY: PacketMetadata = PacketMetadata(());
}

/// How much a queue of a socket holds: so many packets, with so many octets together. The queue itself is the library's.
#[derive(Clone, Copy, Debug, PartialEq, Eq)]
pub struct PacketBuffer<'a> {
    room: Room,
    lifetime: PhantomData<&'a mut [u8]>,
}

impl<'a> PacketBuffer<'a> {
    /// As much as these have places and octets, of which nothing but the length is used.
    pub fn new(metadata: impl AsRef<[PacketMetadata]>, payload: impl AsRef<[u8]>) -> PacketBuffer<'a> {
        PacketBuffer::with_capacity(metadata.as_ref().len(), payload.as_ref().len())
    }

    /// So many packets, with so many octets together.
    pub fn with_capacity(packets: usize, octets: usize) -> PacketBuffer<'a> {
        let at_most = |number| u32::try_from(number).unwrap_or(u32::MAX);
        PacketBuffer { room: Room { packets: at_most(packets), octets: at_most(octets) }, lifetime: PhantomData }
    }
}

/// Why a socket isn't bound.
#[derive(Clone, Copy, Debug, PartialEq, Eq)]
pub enum BindError {
    /// It is bound already.
    InvalidState,
    /// A port that is 0, no endpoint, or one that the library has no socket for.
    Unaddressable,
    /// [`Config::sockets`](crate::iface::Config::sockets) are open, or there is no memory for its queues.
    Exhausted,
}

impl fmt::Display for BindError {
    fn fmt(&self, f: &mut fmt::Formatter<'_>) -> fmt::Result {
        f.write_str(match self {
            BindError::InvalidState => "invalid state",
            BindError::Unaddressable => "unaddressable",
            BindError::Exhausted => "exhausted",
        })
    }
}

impl core::error::Error for BindError {}

impl From<Error> for BindError {
    fn from(error: Error) -> BindError {
        match error {
            Error::TableFull | Error::NoMemory => BindError::Exhausted,
            _ => BindError::Unaddressable,
        }
    }
}

/// Why a packet isn't queued.
#[derive(Clone, Copy, Debug, PartialEq, Eq)]
pub enum SendError {
    /// The socket isn't bound, or the destination has no address or port.
    Unaddressable,
    /// The queue has no room for it.
    BufferFull,
    /// It is longer than is ever sent.
    TooLong,
}

impl fmt::Display for SendError {
    fn fmt(&self, f: &mut fmt::Formatter<'_>) -> fmt::Result {
        f.write_str(match self {
            SendError::Unaddressable => "unaddressable",
            SendError::BufferFull => "buffer full",
            SendError::TooLong => "too long",
        })
    }
}

impl core::error::Error for SendError {}

impl From<Error> for SendError {
    fn from(error: Error) -> SendError {
        match error {
            Error::QueueFull => SendError::BufferFull,
            Error::TooLong => SendError::TooLong,
            _ => SendError::Unaddressable,
        }
    }
}

/// Why no packet is received.
#[derive(Clone, Copy, Debug, PartialEq, Eq)]
pub enum RecvError {
    /// None came.
    Exhausted,
    /// It is longer than the buffer.
    Truncated,
}

impl fmt::Display for RecvError {
    fn fmt(&self, f: &mut fmt::Formatter<'_>) -> fmt::Result {
        f.write_str(match self {
            RecvError::Exhausted => "exhausted",
            RecvError::Truncated => "truncated",
        })
    }
}

impl core::error::Error for RecvError {}

/// The hop limit of a socket's packets where none is set (IANA).
const DEFAULT_HOP_LIMIT: u8 = 64;

/// What the library has for one kind of socket.
pub(crate) trait Kind {
    /// What it is bound to.
    type Endpoint: Copy + fmt::Debug;
    /// What is told of a packet that came.
    type Meta: Copy + fmt::Debug;

    fn open(host: &mut Host, endpoint: Self::Endpoint, rooms: Rooms) -> Result<u32, Error>;
    fn receive(host: &mut Host, number: u32, out: &mut [u8]) -> Result<(usize, Self::Meta), Error>;
    /// As `receive`, but the packet stays.
    fn peek(host: &mut Host, number: u32, out: &mut [u8]) -> Result<(usize, Self::Meta), Error>;
}

/// What all sockets have: what they are bound to, and at a host the number that names them.
#[derive(Debug)]
pub(crate) struct Core<K: Kind> {
    host: Option<Shared>,
    endpoint: Option<K::Endpoint>,
    number: Option<u32>,
    rooms: Rooms,
    hop_limit: Option<u8>,
    /// What waits to be queued.
    outbox: Outbox,
    /// Where packets are read that are lent.
    buffer: Vec<u8>,
    /// The origin of the packet that was looked at last, which is lent.
    looked_at: Option<K::Meta>,
    #[cfg(feature = "async")]
    wakers: Wakers,
}

/// The tasks to be woken, each once.
#[cfg(feature = "async")]
#[derive(Debug, Default)]
struct Wakers {
    recv: Option<Waker>,
    send: Option<Waker>,
}

#[cfg(feature = "async")]
impl Wakers {
    fn wake(&mut self) {
        [self.recv.take(), self.send.take()].into_iter().flatten().for_each(Waker::wake);
    }
}

impl<K: Kind> Core<K> {
    fn new(rx: PacketBuffer<'_>, tx: PacketBuffer<'_>) -> Core<K> {
        Core {
            host: None,
            endpoint: None,
            number: None,
            rooms: Rooms { received: rx.room, to_send: tx.room },
            hop_limit: None,
            outbox: Outbox::default(),
            buffer: Vec::new(),
            looked_at: None,
            #[cfg(feature = "async")]
            wakers: Wakers::default(),
        }
    }

    #[cfg(feature = "async")]
    fn wake(&mut self) {
        if self.wakers.recv.is_some() && self.can_recv() {
            self.wakers.recv.take().into_iter().for_each(Waker::wake);
        }
        if self.wakers.send.is_some() && self.can_send() {
            self.wakers.send.take().into_iter().for_each(Waker::wake);
        }
    }

    fn attach(&mut self, host: &Shared) -> Result<(), Error> {
        if let Some(endpoint) = self.endpoint {
            self.open(host, endpoint)?;
        }
        self.host = Some(host.clone());
        Ok(())
    }

    fn detach(&mut self) {
        if let (Some(host), Some(number)) = (self.host.take(), self.number.take()) {
            host.close(number);
            self.outbox.clear();
        }
    }

    fn open(&mut self, host: &Shared, endpoint: K::Endpoint) -> Result<(), Error> {
        let octets = self.rooms.received.octets as usize;
        self.buffer.try_reserve_exact(octets.saturating_sub(self.buffer.len())).map_err(|_| Error::NoMemory)?;
        self.number = Some(host.open(|host| {
            let number = K::open(host, endpoint, self.rooms)?;
            if let Some(hop_limit) = self.hop_limit {
                // It is open by this number, and the limit isn't 0.
                let _ = host.set_hop_limit(number, hop_limit);
            }
            self.outbox.send_all(host, number);
            Ok(number)
        })?);
        self.buffer.resize(octets, 0);
        Ok(())
    }

    fn bind(&mut self, endpoint: K::Endpoint) -> Result<(), BindError> {
        if self.endpoint.is_some() {
            return Err(BindError::InvalidState);
        }
        if let Some(host) = self.host.clone() {
            self.open(&host, endpoint)?;
        }
        self.endpoint = Some(endpoint);
        #[cfg(feature = "async")]
        self.wakers.wake();
        Ok(())
    }

    fn close(&mut self) {
        let host = self.host.clone();
        self.detach();
        self.host = host;
        self.endpoint = None;
        self.outbox.clear();
        #[cfg(feature = "async")]
        self.wakers.wake();
    }

    /// Calls the host, if the socket is open there.
    #[inline]
    fn call<R>(&self, f: impl FnOnce(&mut Host, u32) -> Result<R, Error>) -> Result<R, Error> {
        match (&self.host, self.number) {
            (Some(host), Some(number)) => host.with(|host| f(host, number)),
            _ if self.endpoint.is_some() => Err(Error::QueueFull),
            _ => Err(Error::NoSocket),
        }
    }

    /// Queues a packet, behind those that wait.
    #[inline]
    fn send(&mut self, to: Destination, octets: &[u8]) -> Result<(), SendError> {
        self.flush();
        match (&self.host, self.number) {
            (Some(host), Some(number)) => Ok(host.with(|host| to.send(host, number, octets))?),
            _ => {
                self.check_room(octets.len(), to)?;
                self.outbox.push(to, octets.to_vec());
                Ok(())
            }
        }
    }

    /// Queues what `f` writes into a buffer of `max_size` octets, if there is room for so many.
    fn send_with(
        &mut self,
        max_size: usize,
        to: Destination,
        f: impl FnOnce(&mut [u8]) -> usize,
    ) -> Result<usize, SendError> {
        self.check_room(max_size, to)?;
        let mut buffer = alloc::vec![0; max_size];
        let size = f(&mut buffer);
        self.send(to, &buffer[..size])?;
        Ok(size)
    }

    /// Lends a packet of `size` octets, to a destination, if it would be queued now: it is with the next call.
    fn lend(&mut self, size: usize, to: Destination) -> Result<&mut [u8], SendError> {
        if self.host.as_ref().is_some_and(|host| !to.may_carry(size, host.ip_mtu())) && to.is_addressable() {
            return Err(SendError::TooLong);
        }
        self.flush();
        self.check_room(size, to)?;
        Ok(self.outbox.push(to, alloc::vec![0; size]))
    }

    /// Hands what waits to its queue, if it is open.
    #[inline]
    fn flush(&mut self) {
        if let (false, Some(host), Some(number)) = (self.outbox.is_empty(), &self.host, self.number) {
            host.with(|host| self.outbox.send_all(host, number));
        }
    }

    /// Whether a packet of so many octets would be queued now, as far as there is room and its destination is one.
    fn check_room(&self, size: usize, to: Destination) -> Result<(), SendError> {
        let queue = self.to_send().filter(|_| to.is_addressable()).ok_or(SendError::Unaddressable)?;
        let room = queue.most_octets.saturating_sub(queue.octets) as usize;
        if queue.packets < queue.most_packets && size <= room { Ok(()) } else { Err(SendError::BufferFull) }
    }

    /// Its queue for what goes, with what waits to be queued. `None` if it isn't bound.
    fn to_send(&self) -> Option<Queue> {
        let Room { packets: most_packets, octets: most_octets } = self.rooms.to_send;
        let empty = Queue { packets: 0, octets: 0, most_packets, most_octets, first: None };
        let mut queue = self.endpoint.map(|_| self.queues().map_or(empty, |queues| queues.to_send))?;
        // There is room for each, so that these are no more than there may be.
        queue.packets += self.outbox.packets() as u32;
        queue.octets += self.outbox.octets() as u32;
        Some(queue)
    }

    /// When it is to be polled for what waits.
    fn poll_at(&self) -> Option<Instant> {
        if self.outbox.is_empty() { None } else { Some(Instant::ZERO) }
    }

    /// What waits in its queues, if it is open.
    #[inline]
    fn queues(&self) -> Option<Queues> {
        self.call(Host::queues).ok()
    }

    fn can_recv(&self) -> bool {
        self.queues().is_some_and(|queues| queues.received.packets > 0)
    }

    fn can_send(&self) -> bool {
        self.to_send().is_some_and(|queue| queue.packets < queue.most_packets)
    }

    fn recv_queue(&self) -> usize {
        self.queues().map_or(0, |queues| queues.received.octets as usize)
    }

    fn send_queue(&self) -> usize {
        self.to_send().map_or(0, |queue| queue.octets as usize)
    }

    fn set_hop_limit(&mut self, hop_limit: Option<u8>) {
        assert_ne!(hop_limit, Some(0), "the time-to-live value of a packet must not be zero");
        self.hop_limit = hop_limit;
        // It is refused only where it isn't open.
        let _ = self.call(|host, number| host.set_hop_limit(number, hop_limit.unwrap_or(DEFAULT_HOP_LIMIT)));
    }

    /// Has the first packet in `buffer`, by a call that takes it, or one that leaves it.
    #[inline]
    fn read(
        &mut self,
        read: impl FnOnce(&mut Host, u32, &mut [u8]) -> Result<(usize, K::Meta), Error>,
    ) -> Result<(usize, K::Meta), RecvError> {
        let mut buffer = core::mem::take(&mut self.buffer);
        let done = self.call(|host, number| read(host, number, &mut buffer));
        self.buffer = buffer;
        done.map_err(|_| RecvError::Exhausted)
    }

    #[inline]
    fn recv(&mut self) -> Result<(&[u8], K::Meta), RecvError> {
        let (length, meta) = self.read(K::receive)?;
        Ok((self.buffer.get(..length).unwrap_or_default(), meta))
    }

    #[inline]
    fn recv_slice(&mut self, data: &mut [u8]) -> Result<(usize, K::Meta), RecvError> {
        match self.call(|host, number| K::receive(host, number, data)) {
            Ok(taken) => Ok(taken),
            Err(Error::NoRoom) => {
                // It is dropped, as by smoltcp.
                self.read(K::receive)?;
                Err(RecvError::Truncated)
            }
            Err(_) => Err(RecvError::Exhausted),
        }
    }

    fn peek(&mut self) -> Result<(&[u8], &K::Meta), RecvError> {
        let (length, meta) = self.read(K::peek)?;
        Ok((self.buffer.get(..length).unwrap_or_default(), self.looked_at.insert(meta)))
    }

    fn peek_slice(&mut self, data: &mut [u8]) -> Result<(usize, &K::Meta), RecvError> {
        match self.call(|host, number| K::peek(host, number, data)) {
            Ok((length, meta)) => Ok((length, self.looked_at.insert(meta))),
            Err(Error::NoRoom) => Err(RecvError::Truncated),
            Err(_) => Err(RecvError::Exhausted),
        }
    }

    fn waiting(&self) -> Option<(IpAddress, Instant)> {
        self.call(|host, number| host.waiting(number)).ok()?
    }

    fn given_up(&mut self) -> Option<IpAddress> {
        self.call(|host, number| host.given_up(number)).ok()?
    }
}

impl<K: Kind> Drop for Core<K> {
    fn drop(&mut self) {
        self.detach();
    }
}

/// What the kinds of sockets share.
macro_rules! common {
    ($kind:ident) => {
        impl<'a> crate::socket::AnySocket<'a> for Socket<'a> {
            fn upcast(self) -> crate::socket::Socket<'a> {
                crate::socket::Socket::$kind(self)
            }

            fn downcast<'c>(socket: &'c crate::socket::Socket<'a>) -> Option<&'c Socket<'a>> {
                if let crate::socket::Socket::$kind(socket) = socket { Some(socket) } else { None }
            }

            fn downcast_mut<'c>(socket: &'c mut crate::socket::Socket<'a>) -> Option<&'c mut Socket<'a>> {
                if let crate::socket::Socket::$kind(socket) = socket { Some(socket) } else { None }
            }
        }

        impl<'a> Socket<'a> {
            /// Whether it is bound.
            pub fn is_open(&self) -> bool {
                self.core.endpoint.is_some()
            }

            /// Sets the task that is woken when a packet has come, or the socket is bound or closed: by the interface's
            /// polls, [`receive_frame`](crate::iface::Interface::receive_frame) and
            /// [`next_frame`](crate::iface::Interface::next_frame). It is woken once, and may be in vain; one that was set
            /// before isn't woken any more.
            #[cfg(feature = "async")]
            pub fn register_recv_waker(&mut self, waker: &core::task::Waker) {
                self.core.wakers.recv = Some(waker.clone());
            }

            /// Sets the task that is woken when there is room for one packet more, or the socket is bound or closed: as
            /// [`register_recv_waker`](Socket::register_recv_waker) does.
            #[cfg(feature = "async")]
            pub fn register_send_waker(&mut self, waker: &core::task::Waker) {
                self.core.wakers.send = Some(waker.clone());
            }

            /// Whether a packet came.
            pub fn can_recv(&self) -> bool {
                self.core.can_recv()
            }

            /// Whether its queue for what goes has room for one packet more. `false` while it isn't bound.
            pub fn can_send(&self) -> bool {
                self.core.can_send()
            }

            /// How many octets wait in its queue for what comes.
            pub fn recv_queue(&self) -> usize {
                self.core.recv_queue()
            }

            /// How many octets wait in its queue for what goes.
            pub fn send_queue(&self) -> usize {
                self.core.send_queue()
            }

            /// How many packets its queue for what comes can hold.
            pub fn packet_recv_capacity(&self) -> usize {
                self.core.rooms.received.packets as usize
            }

            /// How many packets its queue for what goes can hold.
            pub fn packet_send_capacity(&self) -> usize {
                self.core.rooms.to_send.packets as usize
            }

            /// How many octets its queue for what comes can hold.
            pub fn payload_recv_capacity(&self) -> usize {
                self.core.rooms.received.octets as usize
            }

            /// How many octets its queue for what goes can hold.
            pub fn payload_send_capacity(&self) -> usize {
                self.core.rooms.to_send.octets as usize
            }

            /// For which destination its first packet waits, since no neighbour answers for it, and since when, as of
            /// the last round. `None` if it doesn't wait. smoltcp has none such.
            pub fn waiting(&self) -> Option<(crate::wire::IpAddress, crate::time::Instant)> {
                self.core.waiting()
            }

            /// The destination of the packet that it gave up last, after
            /// [`Config::patience`](crate::iface::Config::patience), once. `None` if it gave up none since. smoltcp has
            /// none such.
            pub fn given_up(&mut self) -> Option<crate::wire::IpAddress> {
                self.core.given_up()
            }
        }
    };
}
pub(crate) use common;

/// What all but raw sockets share, which send packets with headers of their own.
macro_rules! hop_limits {
    () => {
        impl Socket<'_> {
            /// The hop limit that was set. `None`: 64.
            pub fn hop_limit(&self) -> Option<u8> {
                self.core.hop_limit
            }

            /// Sets the hop limit (over IPv4 the time to live) of the packets that it sends from now on, those that
            /// wait among them. `None`: 64. It stays when the socket is closed, or goes from set to set.
            ///
            /// # Panics
            /// If it is 0 (RFC 1122, 3.2.1.7), as smoltcp's.
            pub fn set_hop_limit(&mut self, hop_limit: Option<u8>) {
                self.core.set_hop_limit(hop_limit);
            }
        }
    };
}
pub(crate) use hop_limits;
