//! UDP sockets (RFC 768).
use super::outbox::Destination;
pub use super::{BindError, PacketBuffer, PacketMetadata, RecvError, SendError};
use super::{Core, Kind, common, hop_limits};
use crate::host::{Error, Host, Rooms};
use crate::wire::{IpEndpoint, IpListenEndpoint};
use core::fmt;
use core::marker::PhantomData;

/// Where a datagram came from, or is to go.
#[derive(Clone, Copy, Debug, PartialEq, Eq, PartialOrd, Ord, Hash)]
#[non_exhaustive]
pub struct UdpMetadata {
    /// The other end.
    pub endpoint: IpEndpoint,
}

impl<T: Into<IpEndpoint>> From<T> for UdpMetadata {
    fn from(end: T) -> UdpMetadata {
        UdpMetadata { endpoint: end.into() }
    }
}

impl fmt::Display for UdpMetadata {
    fn fmt(&self, f: &mut fmt::Formatter<'_>) -> fmt::Result {
        self.endpoint.fmt(f)
    }
}

#[derive(Debug)]
pub(crate) struct Udp;

impl Kind for Udp {
    type Endpoint = IpListenEndpoint;
    type Meta = UdpMetadata;

    fn open(host: &mut Host, endpoint: IpListenEndpoint, rooms: Rooms) -> Result<u32, Error> {
        host.udp_open(endpoint, rooms)
    }

    #[inline]
    fn receive(host: &mut Host, number: u32, out: &mut [u8]) -> Result<(usize, UdpMetadata), Error> {
        host.udp_receive(number, out).map(|(length, from)| (length, from.into()))
    }

    #[inline]
    fn peek(host: &mut Host, number: u32, out: &mut [u8]) -> Result<(usize, UdpMetadata), Error> {
        host.udp_peek(number, out).map(|(length, from)| (length, from.into()))
    }
}

/// A UDP socket.
#[derive(Debug)]
pub struct Socket<'a> {
    pub(crate) core: Core<Udp>,
    lifetime: PhantomData<&'a mut [u8]>,
}

common!(Udp);
hop_limits!();

impl<'a> Socket<'a> {
    /// A socket with queues for what comes and what goes, which isn't bound.
    pub fn new(rx_buffer: PacketBuffer<'a>, tx_buffer: PacketBuffer<'a>) -> Socket<'a> {
        Socket { core: Core::new(rx_buffer, tx_buffer), lifetime: PhantomData }
    }

    /// What it is bound to.
    pub fn endpoint(&self) -> IpListenEndpoint {
        self.core.endpoint.unwrap_or_default()
    }

    /// Binds it to a port of one address, or of any, which 0.0.0.0 and :: are too. It then sends from that address, and
    /// it isn't tested that this is an own one. A datagram comes to the first socket of the set that accepts it, also one
    /// to a group or a broadcast address.
    ///
    /// # Errors
    /// [`BindError::Unaddressable`] if the port is 0, or the address a group's or 255.255.255.255;
    /// [`BindError::InvalidState`] if it is bound; [`BindError::Exhausted`] if it is in a set and can't be opened
    /// there.
    pub fn bind<T: Into<IpListenEndpoint>>(&mut self, endpoint: T) -> Result<(), BindError> {
        let endpoint = endpoint.into();
        if !endpoint.is_specified() || endpoint.addr.is_some_and(|addr| addr.is_multicast() || addr.is_broadcast()) {
            return Err(BindError::Unaddressable);
        }
        self.core.bind(endpoint)
    }

    /// Closes it: what waits in its queues is dropped.
    pub fn close(&mut self) {
        self.core.close();
    }

    /// Queues a datagram.
    ///
    /// # Errors
    /// [`SendError`]: then nothing is queued.
    #[inline]
    pub fn send_slice(&mut self, data: &[u8], meta: impl Into<UdpMetadata>) -> Result<(), SendError> {
        let remote = meta.into().endpoint;
        self.core.send(Destination::Udp(remote), data)
    }

    /// Lends a datagram of `size` octets, which are zeros until they are written. It is queued with
    /// the next call of this socket or of the interface.
    ///
    /// # Errors
    /// [`SendError`]: then nothing is lent.
    pub fn send(&mut self, size: usize, meta: impl Into<UdpMetadata>) -> Result<&mut [u8], SendError> {
        self.core.lend(size, Destination::Udp(meta.into().endpoint))
    }

    /// Queues the datagram that `f` writes into a buffer of `max_size` octets, and returns how many `f` said it has.
    ///
    /// # Errors
    /// [`SendError`]: then nothing is queued.
    ///
    /// # Panics
    /// If `f` says more than `max_size`.
    pub fn send_with<F>(&mut self, max_size: usize, meta: impl Into<UdpMetadata>, f: F) -> Result<usize, SendError>
    where
        F: FnOnce(&mut [u8]) -> usize,
    {
        let remote = meta.into().endpoint;
        self.core.send_with(max_size, Destination::Udp(remote), f)
    }

    /// Takes the first datagram that came.
    ///
    /// # Errors
    /// [`RecvError::Exhausted`] if none came.
    #[inline]
    pub fn recv(&mut self) -> Result<(&[u8], UdpMetadata), RecvError> {
        self.core.recv()
    }

    /// Takes the first datagram that came, into a buffer, and returns its length.
    ///
    /// # Errors
    /// [`RecvError::Exhausted`] if none came, [`RecvError::Truncated`] if it is longer than the buffer: then it is
    /// dropped.
    #[inline]
    pub fn recv_slice(&mut self, data: &mut [u8]) -> Result<(usize, UdpMetadata), RecvError> {
        self.core.recv_slice(data)
    }

    /// The first datagram that came, which stays.
    ///
    /// # Errors
    /// [`RecvError::Exhausted`] if none came.
    pub fn peek(&mut self) -> Result<(&[u8], &UdpMetadata), RecvError> {
        self.core.peek()
    }

    /// Copies the first datagram that came, which stays, into a buffer, and returns its length.
    ///
    /// # Errors
    /// [`RecvError::Exhausted`] if none came, [`RecvError::Truncated`] if it is longer than the buffer.
    pub fn peek_slice(&mut self, data: &mut [u8]) -> Result<(usize, &UdpMetadata), RecvError> {
        self.core.peek_slice(data)
    }
}
