//! Raw sockets, for whole packets of one version of IP and one protocol.
use super::outbox::Destination;
pub use super::{BindError, PacketBuffer, PacketMetadata, RecvError, SendError};
use super::{Core, Kind, common};
use crate::host::{Error, Host, Rooms};
use crate::wire::{IpProtocol, IpVersion};
use core::marker::PhantomData;

#[derive(Debug)]
pub(crate) struct Raw;

impl Kind for Raw {
    type Endpoint = (Option<IpVersion>, Option<IpProtocol>);
    type Meta = ();

    fn open(host: &mut Host, endpoint: Self::Endpoint, rooms: Rooms) -> Result<u32, Error> {
        let (Some(version), Some(protocol)) = endpoint else { return Err(Error::BadArgument) };
        host.raw_open(version, protocol, rooms)
    }

    #[inline]
    fn receive(host: &mut Host, number: u32, out: &mut [u8]) -> Result<(usize, ()), Error> {
        host.raw_receive(number, out).map(|length| (length, ()))
    }

    #[inline]
    fn peek(host: &mut Host, number: u32, out: &mut [u8]) -> Result<(usize, ()), Error> {
        host.raw_peek(number, out).map(|length| (length, ()))
    }
}

/// A raw socket.
#[derive(Debug)]
pub struct Socket<'a> {
    pub(crate) core: Core<Raw>,
    version: Option<IpVersion>,
    protocol: Option<IpProtocol>,
    lifetime: PhantomData<&'a mut [u8]>,
}

common!(Raw);

impl<'a> Socket<'a> {
    /// A socket with queues for what comes and what goes, which is bound from the start, to a version of IP and a
    /// protocol, with or without `Some`. The library has none for any version or protocol: one that is made by `None` is
    /// refused when it comes into a set, by [`Error::BadArgument`].
    pub fn new(
        ip_version: impl Into<Option<IpVersion>>,
        ip_protocol: impl Into<Option<IpProtocol>>,
        rx_buffer: PacketBuffer<'a>,
        tx_buffer: PacketBuffer<'a>,
    ) -> Socket<'a> {
        let (ip_version, ip_protocol) = (ip_version.into(), ip_protocol.into());
        let mut core = Core::new(rx_buffer, tx_buffer);
        core.endpoint = Some((ip_version, ip_protocol));
        Socket { core, version: ip_version, protocol: ip_protocol, lifetime: PhantomData }
    }

    /// Its version of IP.
    pub fn ip_version(&self) -> Option<IpVersion> {
        self.version
    }

    /// Its protocol.
    pub fn ip_protocol(&self) -> Option<IpProtocol> {
        self.protocol
    }

    /// Queues a packet with its header, which is written anew when it is sent. One that isn't of the socket's version
    /// and protocol, or is too long, is dropped then.
    ///
    /// # Errors
    /// [`SendError::BufferFull`]: then nothing is queued.
    #[inline]
    pub fn send_slice(&mut self, data: &[u8]) -> Result<(), SendError> {
        self.core.send(Destination::Raw, data)
    }

    /// Lends a packet with its header of `size` octets, which are zeros until they are written. It is queued with
    /// the next call of this socket or of the interface.
    ///
    /// # Errors
    /// [`SendError`]: then nothing is lent.
    pub fn send(&mut self, size: usize) -> Result<&mut [u8], SendError> {
        self.core.lend(size, Destination::Raw)
    }

    /// Queues the packet that `f` writes into a buffer of `max_size` octets, and returns how many `f` said it has.
    ///
    /// # Errors
    /// [`SendError::BufferFull`]: then nothing is queued.
    ///
    /// # Panics
    /// If `f` says more than `max_size`.
    pub fn send_with<F>(&mut self, max_size: usize, f: F) -> Result<usize, SendError>
    where
        F: FnOnce(&mut [u8]) -> usize,
    {
        self.core.send_with(max_size, Destination::Raw, f)
    }

    /// Takes the first packet that came, with its header.
    ///
    /// # Errors
    /// [`RecvError::Exhausted`] if none came.
    #[inline]
    pub fn recv(&mut self) -> Result<&[u8], RecvError> {
        self.core.recv().map(|(packet, ())| packet)
    }

    /// Takes the first packet that came, into a buffer, and returns its length.
    ///
    /// # Errors
    /// [`RecvError::Exhausted`] if none came, [`RecvError::Truncated`] if it is longer than the buffer: then it is
    /// dropped.
    #[inline]
    pub fn recv_slice(&mut self, data: &mut [u8]) -> Result<usize, RecvError> {
        self.core.recv_slice(data).map(|(length, ())| length)
    }

    /// The first packet that came, which stays.
    ///
    /// # Errors
    /// [`RecvError::Exhausted`] if none came.
    pub fn peek(&mut self) -> Result<&[u8], RecvError> {
        self.core.peek().map(|(packet, ())| packet)
    }

    /// Copies the first packet that came, which stays, into a buffer, and returns its length.
    ///
    /// # Errors
    /// [`RecvError::Exhausted`] if none came, [`RecvError::Truncated`] if it is longer than the buffer.
    pub fn peek_slice(&mut self, data: &mut [u8]) -> Result<usize, RecvError> {
        self.core.peek_slice(data).map(|(length, ())| length)
    }
}
