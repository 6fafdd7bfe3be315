//! A device whose frames are shown to a function.
use super::{Device, DeviceCapabilities, Medium, RxToken, TxToken};
use crate::time::Instant;
use crate::wire::{EthernetFrame, Ipv4Packet, Ipv6Packet, PrettyPrinter};
use core::fmt;

/// A device over another one, each of whose frames is shown to a function: as it comes, and as it was written.
///
/// A frame is printed as a line for each header, with the flags, numbers, window and options of a segment, what a fragment
/// belongs to, and messages of DHCP and DNS: for eyes alone, by [`wire::pretty_print`](crate::wire::pretty_print). What goes
/// in and out is read and written by the library.
///
/// ```
/// use fumitorygate::phy::{Loopback, Medium, Tracer};
/// let device = Tracer::new(Loopback::new(Medium::Ethernet), |timestamp, packet| println!("[{timestamp}] {packet}"));
/// ```
#[derive(Debug)]
pub struct Tracer<D: Device> {
    inner: D,
    writer: fn(Instant, TracerPacket<'_>),
}

impl<D: Device> Tracer<D> {
    /// A device over `inner`.
    pub fn new(inner: D, writer: fn(Instant, TracerPacket<'_>)) -> Tracer<D> {
        Tracer { inner, writer }
    }

    /// The device below.
    pub fn get_ref(&self) -> &D {
        &self.inner
    }

    /// The device below.
    pub fn get_mut(&mut self) -> &mut D {
        &mut self.inner
    }

    /// The device below.
    pub fn into_inner(self) -> D {
        self.inner
    }
}

/// Whether a frame came or was sent.
#[derive(Clone, Copy, Debug, PartialEq, Eq)]
pub enum TracerDirection {
    /// It came.
    RX,
    /// It was sent.
    TX,
}

/// A frame that is shown.
#[derive(Clone, Copy, Debug, PartialEq, Eq)]
pub struct TracerPacket<'a> {
    /// Its octets.
    pub buffer: &'a [u8],
    /// Its medium.
    pub medium: Medium,
    /// Whether it came or was sent.
    pub direction: TracerDirection,
}

impl fmt::Display for TracerPacket<'_> {
    fn fmt(&self, f: &mut fmt::Formatter<'_>) -> fmt::Result {
        let prefix = match self.direction {
            TracerDirection::RX => "-> ",
            TracerDirection::TX => "<- ",
        };
        let buffer = &self.buffer;
        match (self.medium, buffer.first().map(|octet| octet >> 4)) {
            (Medium::Ethernet, _) => PrettyPrinter::<EthernetFrame<&'static [u8]>>::new(prefix, buffer).fmt(f),
            (Medium::Ip, Some(4)) => PrettyPrinter::<Ipv4Packet<&'static [u8]>>::new(prefix, buffer).fmt(f),
            (Medium::Ip, Some(6)) => PrettyPrinter::<Ipv6Packet<&'static [u8]>>::new(prefix, buffer).fmt(f),
            (Medium::Ip, _) => f.write_str("unrecognized IP version"),
            #[cfg(feature = "medium-ieee802154")]
            (Medium::Ieee802154, _) => f.write_str("a frame of IEEE 802.15.4"),
        }
    }
}

/// A frame of a [`Tracer`], or permission to send one.
#[derive(Debug)]
pub struct Token<T> {
    token: T,
    writer: fn(Instant, TracerPacket<'_>),
    medium: Medium,
    timestamp: Instant,
}

impl<T: RxToken> RxToken for Token<T> {
    fn consume<R, F: FnOnce(&[u8]) -> R>(self, f: F) -> R {
        let Token { token, writer, medium, timestamp } = self;
        token.consume(|buffer| {
            writer(timestamp, TracerPacket { buffer, medium, direction: TracerDirection::RX });
            f(buffer)
        })
    }
}

impl<T: TxToken> TxToken for Token<T> {
    fn consume<R, F: FnOnce(&mut [u8]) -> R>(self, len: usize, f: F) -> R {
        let Token { token, writer, medium, timestamp } = self;
        token.consume(len, |buffer| {
            let result = f(buffer);
            writer(timestamp, TracerPacket { buffer, medium, direction: TracerDirection::TX });
            result
        })
    }
}

impl<D: Device> Device for Tracer<D> {
    type RxToken<'a>
        = Token<D::RxToken<'a>>
    where
        Self: 'a;
    type TxToken<'a>
        = Token<D::TxToken<'a>>
    where
        Self: 'a;

    fn receive(&mut self, timestamp: Instant) -> Option<(Self::RxToken<'_>, Self::TxToken<'_>)> {
        let (writer, medium) = (self.writer, self.capabilities().medium);
        let (rx, tx) = self.inner.receive(timestamp)?;
        Some((Token { token: rx, writer, medium, timestamp }, Token { token: tx, writer, medium, timestamp }))
    }

    fn transmit(&mut self, timestamp: Instant) -> Option<Self::TxToken<'_>> {
        let (writer, medium) = (self.writer, self.capabilities().medium);
        Some(Token { token: self.inner.transmit(timestamp)?, writer, medium, timestamp })
    }

    fn capabilities(&self) -> DeviceCapabilities {
        self.inner.capabilities()
    }
}
