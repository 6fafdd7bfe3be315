//! A device whose frames are written in the form that `tcpdump` and Wireshark read.
use super::{Device, DeviceCapabilities, Medium, RxToken, TxToken};
use crate::time::Instant;
use core::cell::RefCell;

/// What the frames of a file begin with (the registry of link-layer header types of `tcpdump`).
#[derive(Clone, Copy, Debug, PartialEq, Eq)]
#[repr(u32)]
pub enum PcapLinkType {
    /// A header of Ethernet.
    Ethernet = 1,
    /// The header of IP.
    Ip = 101,
    /// A header of IEEE 802.15.4, without a checksum of the frame.
    #[cfg(feature = "medium-ieee802154")]
    Ieee802154WithoutFcs = 230,
}

/// Which frames are written.
#[derive(Clone, Copy, Debug, PartialEq, Eq)]
pub enum PcapMode {
    /// All.
    Both,
    /// Those that come.
    RxOnly,
    /// Those that are sent.
    TxOnly,
}

/// Where a file of frames is written to. With `std` each [`Write`](std::io::Write) is one, as far as its errors may be
/// passed over.
pub trait PcapSink {
    /// Writes octets.
    fn write(&mut self, data: &[u8]);

    /// Hands on what was written.
    fn flush(&mut self) {}

    /// Writes a number of 16 bits, in the machine's order.
    fn write_u16(&mut self, value: u16) {
        self.write(&value.to_ne_bytes());
    }

    /// Writes a number of 32 bits, in the machine's order.
    fn write_u32(&mut self, value: u32) {
        self.write(&value.to_ne_bytes());
    }

    /// Writes what a file begins with: version 2.4, instants in microseconds, frames of up to 65,535 octets.
    fn global_header(&mut self, link_type: PcapLinkType) {
        self.write_u32(0xa1b2_c3d4);
        self.write_u16(2);
        self.write_u16(4);
        self.write_u32(0);
        self.write_u32(0);
        self.write_u32(65_535);
        self.write_u32(link_type as u32);
    }

    /// Writes what a frame of so many octets begins with.
    ///
    /// # Panics
    /// If there are more than 65,535.
    fn packet_header(&mut self, timestamp: Instant, length: usize) {
        assert!(length <= 65_535);
        self.write_u32(timestamp.secs() as u32);
        self.write_u32(timestamp.micros() as u32);
        self.write_u32(length as u32);
        self.write_u32(length as u32);
    }

    /// Writes a frame.
    ///
    /// # Panics
    /// If it has more than 65,535 octets.
    fn packet(&mut self, timestamp: Instant, packet: &[u8]) {
        self.packet_header(timestamp, packet.len());
        self.write(packet);
        self.flush();
    }
}

#[cfg(feature = "std")]
impl<W: std::io::Write> PcapSink for W {
    fn write(&mut self, data: &[u8]) {
        // As smoltcp's, which has no way to tell of an error.
        let _ = self.write_all(data);
    }

    fn flush(&mut self) {
        let _ = std::io::Write::flush(self);
    }
}

/// A device over another one, whose frames are written to a sink.
#[derive(Debug)]
pub struct PcapWriter<D: Device, S: PcapSink> {
    lower: D,
    sink: RefCell<S>,
    mode: PcapMode,
}

impl<D: Device, S: PcapSink> PcapWriter<D, S> {
    /// A device over `lower`. What a file begins with is written at once.
    pub fn new(lower: D, mut sink: S, mode: PcapMode) -> PcapWriter<D, S> {
        sink.global_header(match lower.capabilities().medium {
            Medium::Ethernet => PcapLinkType::Ethernet,
            Medium::Ip => PcapLinkType::Ip,
            #[cfg(feature = "medium-ieee802154")]
            Medium::Ieee802154 => PcapLinkType::Ieee802154WithoutFcs,
        });
        PcapWriter { lower, sink: RefCell::new(sink), mode }
    }

    /// The device below.
    pub fn get_ref(&self) -> &D {
        &self.lower
    }

    /// The device below.
    pub fn get_mut(&mut self) -> &mut D {
        &mut self.lower
    }

    /// The device below.
    pub fn into_inner(self) -> D {
        self.lower
    }
}

/// A frame of a [`PcapWriter`], or permission to send one.
#[derive(Debug)]
pub struct Token<'a, T, S> {
    token: T,
    sink: &'a RefCell<S>,
    is_written: bool,
    timestamp: Instant,
}

impl<T: RxToken, S: PcapSink> RxToken for Token<'_, T, S> {
    fn consume<R, F: FnOnce(&[u8]) -> R>(self, f: F) -> R {
        self.token.consume(|buffer| {
            if self.is_written {
                self.sink.borrow_mut().packet(self.timestamp, buffer);
            }
            f(buffer)
        })
    }
}

impl<T: TxToken, S: PcapSink> TxToken for Token<'_, T, S> {
    fn consume<R, F: FnOnce(&mut [u8]) -> R>(self, len: usize, f: F) -> R {
        self.token.consume(len, |buffer| {
            let result = f(buffer);
            if self.is_written {
                self.sink.borrow_mut().packet(self.timestamp, buffer);
            }
            result
        })
    }
}

impl<D: Device, S: PcapSink> Device for PcapWriter<D, S> {
    type RxToken<'a>
        = Token<'a, D::RxToken<'a>, S>
    where
        Self: 'a;
    type TxToken<'a>
        = Token<'a, D::TxToken<'a>, S>
    where
        Self: 'a;

    fn receive(&mut self, timestamp: Instant) -> Option<(Self::RxToken<'_>, Self::TxToken<'_>)> {
        let (sink, mode) = (&self.sink, self.mode);
        let (rx, tx) = self.lower.receive(timestamp)?;
        let rx = Token { token: rx, sink, is_written: mode != PcapMode::TxOnly, timestamp };
        Some((rx, Token { token: tx, sink, is_written: mode != PcapMode::RxOnly, timestamp }))
    }

    fn transmit(&mut self, timestamp: Instant) -> Option<Self::TxToken<'_>> {
        let (sink, is_written) = (&self.sink, self.mode != PcapMode::RxOnly);
        Some(Token { token: self.lower.transmit(timestamp)?, sink, is_written, timestamp })
    }

    fn capabilities(&self) -> DeviceCapabilities {
        self.lower.capabilities()
    }
}
