//! ICMP sockets, for both versions of IP (RFC 792, RFC 4443).
use super::outbox::Destination;
pub use super::{BindError, PacketBuffer, PacketMetadata, RecvError, SendError};
use super::{Core, Kind, common, hop_limits};
use crate::host::{Error, Host, Rooms};
use crate::wire::{IpAddress, IpListenEndpoint};
use core::marker::PhantomData;

/// What a socket receives.
#[derive(Clone, Copy, Debug, Default, PartialEq, Eq, PartialOrd, Ord, Hash)]
pub enum Endpoint {
    /// Nothing.
    #[default]
    Unspecified,
    /// Echo messages with this identifier.
    Ident(u16),
    /// Port unreachables that answer datagrams from this port. The library has no such socket for one address alone:
    /// with an `addr` it is refused.
    Udp(IpListenEndpoint),
}

impl Endpoint {
    /// Whether it is one that a socket may be bound to.
    pub fn is_specified(&self) -> bool {
        match self {
            Endpoint::Unspecified => false,
            Endpoint::Ident(_) => true,
            Endpoint::Udp(endpoint) => endpoint.is_specified(),
        }
    }
}

/// What the library has a socket for.
#[derive(Clone, Copy, Debug)]
pub(crate) enum Open {
    Ident(u16),
    Port(u16),
}

#[derive(Debug)]
pub(crate) struct Icmp;

impl Kind for Icmp {
    type Endpoint = Open;
    type Meta = IpAddress;

    fn open(host: &mut Host, endpoint: Open, rooms: Rooms) -> Result<u32, Error> {
        match endpoint {
            Open::Ident(ident) => host.icmp_open_ident(ident, rooms),
            Open::Port(port) => host.icmp_open_port(port, rooms),
        }
    }

    #[inline]
    fn receive(host: &mut Host, number: u32, out: &mut [u8]) -> Result<(usize, IpAddress), Error> {
        host.icmp_receive(number, out)
    }

    #[inline]
    fn peek(host: &mut Host, number: u32, out: &mut [u8]) -> Result<(usize, IpAddress), Error> {
        host.icmp_peek(number, out)
    }
}

/// An ICMP socket.
#[derive(Debug)]
pub struct Socket<'a> {
    pub(crate) core: Core<Icmp>,
    lifetime: PhantomData<&'a mut [u8]>,
}

common!(Icmp);
hop_limits!();

impl<'a> Socket<'a> {
    /// A socket with queues for what comes and what goes, which isn't bound.
    pub fn new(rx_buffer: PacketBuffer<'a>, tx_buffer: PacketBuffer<'a>) -> Socket<'a> {
        Socket { core: Core::new(rx_buffer, tx_buffer), lifetime: PhantomData }
    }

    /// Binds it to what it is to receive.
    ///
    /// # Errors
    /// [`BindError::Unaddressable`] if that is nothing, port 0, or a port of one address; [`BindError::InvalidState`]
    /// if it is bound; [`BindError::Exhausted`] if it is in a set and can't be opened there.
    pub fn bind<T: Into<Endpoint>>(&mut self, endpoint: T) -> Result<(), BindError> {
        match endpoint.into() {
            Endpoint::Ident(ident) => self.core.bind(Open::Ident(ident)),
            Endpoint::Udp(IpListenEndpoint { addr: None, port }) if port != 0 => self.core.bind(Open::Port(port)),
            _ => Err(BindError::Unaddressable),
        }
    }

    /// Queues a message, from its type on, with any checksum. One that is no echo message of the address's version is
    /// dropped later.
    ///
    /// # Errors
    /// [`SendError`]: then nothing is queued.
    #[inline]
    pub fn send_slice(&mut self, data: &[u8], endpoint: IpAddress) -> Result<(), SendError> {
        self.core.send(Destination::Icmp(endpoint), data)
    }

    /// Lends a message, from its type on, of `size` octets, which are zeros until they are written. It is queued with
    /// the next call of this socket or of the interface.
    ///
    /// # Errors
    /// [`SendError`]: then nothing is lent.
    pub fn send(&mut self, size: usize, endpoint: IpAddress) -> Result<&mut [u8], SendError> {
        self.core.lend(size, Destination::Icmp(endpoint))
    }

    /// Queues the message that `f` writes into a buffer of `max_size` octets, and returns how many `f` said it has.
    ///
    /// # Errors
    /// [`SendError`]: then nothing is queued.
    ///
    /// # Panics
    /// If `f` says more than `max_size`.
    pub fn send_with<F>(&mut self, max_size: usize, endpoint: IpAddress, f: F) -> Result<usize, SendError>
    where
        F: FnOnce(&mut [u8]) -> usize,
    {
        self.core.send_with(max_size, Destination::Icmp(endpoint), f)
    }

    /// Takes the first message that came, from its type on.
    ///
    /// # Errors
    /// [`RecvError::Exhausted`] if none came.
    #[inline]
    pub fn recv(&mut self) -> Result<(&[u8], IpAddress), RecvError> {
        self.core.recv()
    }

    /// Takes the first message that came, into a buffer, and returns its length.
    ///
    /// # Errors
    /// [`RecvError::Exhausted`] if none came, [`RecvError::Truncated`] if it is longer than the buffer: then it is
    /// dropped.
    #[inline]
    pub fn recv_slice(&mut self, data: &mut [u8]) -> Result<(usize, IpAddress), RecvError> {
        self.core.recv_slice(data)
    }

    /// The first message that came, which stays. smoltcp has none such.
    ///
    /// # Errors
    /// [`RecvError::Exhausted`] if none came.
    pub fn peek(&mut self) -> Result<(&[u8], &IpAddress), RecvError> {
        self.core.peek()
    }

    /// Copies the first message that came, which stays, into a buffer, and returns its length. smoltcp has none such.
    ///
    /// # Errors
    /// [`RecvError::Exhausted`] if none came, [`RecvError::Truncated`] if it is longer than the buffer.
    pub fn peek_slice(&mut self, data: &mut [u8]) -> Result<(usize, &IpAddress), RecvError> {
        self.core.peek_slice(data)
    }
}
