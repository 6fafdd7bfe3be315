//! Frames of Ethernet.
use super::{Error, EthernetAddress, Result};
use core::fmt;

/// The octets of a header of Ethernet.
pub const ETHERNET_HEADER_LEN: usize = 14;

enum_with_unknown! {
    /// What a frame carries (IEEE 802 Numbers).
    pub enum EthernetProtocol(u16) {
        /// IPv4.
        Ipv4 = 0x0800,
        /// ARP.
        Arp = 0x0806,
        /// IPv6.
        Ipv6 = 0x86dd,
    }
}

impl fmt::Display for EthernetProtocol {
    fn fmt(&self, f: &mut fmt::Formatter<'_>) -> fmt::Result {
        match self {
            EthernetProtocol::Ipv4 => f.write_str("IPv4"),
            EthernetProtocol::Arp => f.write_str("ARP"),
            EthernetProtocol::Ipv6 => f.write_str("IPv6"),
            EthernetProtocol::Unknown(number) => write!(f, "0x{number:04x}"),
        }
    }
}

view! {
    /// A frame of Ethernet (RFC 894), without its check sequence.
    EthernetFrame
}

impl<T: AsRef<[u8]>> EthernetFrame<T> {
    /// Tests that the header is there.
    ///
    /// # Errors
    /// [`Error`] if there are fewer than 14 octets.
    pub fn check_len(&self) -> Result<()> {
        if self.buffer.as_ref().len() < ETHERNET_HEADER_LEN { Err(Error) } else { Ok(()) }
    }

    /// The octets of its header.
    pub const fn header_len() -> usize {
        ETHERNET_HEADER_LEN
    }

    /// The octets of a frame with a payload of so many.
    pub const fn buffer_len(payload_len: usize) -> usize {
        ETHERNET_HEADER_LEN + payload_len
    }

    /// Where it goes.
    pub fn dst_addr(&self) -> EthernetAddress {
        EthernetAddress(self.octets_at(0))
    }

    /// Where it comes from.
    pub fn src_addr(&self) -> EthernetAddress {
        EthernetAddress(self.octets_at(6))
    }

    /// What it carries.
    pub fn ethertype(&self) -> EthernetProtocol {
        self.u16_at(12).into()
    }
}

impl<'a, T: AsRef<[u8]> + ?Sized> EthernetFrame<&'a T> {
    /// What is behind its header.
    pub fn payload(&self) -> &'a [u8] {
        &self.buffer.as_ref()[ETHERNET_HEADER_LEN..]
    }
}

impl<T: AsRef<[u8]> + AsMut<[u8]>> EthernetFrame<T> {
    /// Sets where it goes.
    pub fn set_dst_addr(&mut self, value: EthernetAddress) {
        self.put(0, &value.0);
    }

    /// Sets where it comes from.
    pub fn set_src_addr(&mut self, value: EthernetAddress) {
        self.put(6, &value.0);
    }

    /// Sets what it carries.
    pub fn set_ethertype(&mut self, value: EthernetProtocol) {
        self.put(12, &u16::from(value).to_be_bytes());
    }

    /// What is behind its header, to be written.
    pub fn payload_mut(&mut self) -> &mut [u8] {
        &mut self.buffer.as_mut()[ETHERNET_HEADER_LEN..]
    }
}

impl<T: AsRef<[u8]>> fmt::Display for EthernetFrame<T> {
    fn fmt(&self, f: &mut fmt::Formatter<'_>) -> fmt::Result {
        write!(f, "EthernetII src={} dst={} type={}", self.src_addr(), self.dst_addr(), self.ethertype())
    }
}

/// The values of a header of Ethernet.
#[derive(Clone, Copy, Debug, PartialEq, Eq)]
pub struct EthernetRepr {
    /// Where the frame comes from.
    pub src_addr: EthernetAddress,
    /// Where it goes.
    pub dst_addr: EthernetAddress,
    /// What it carries.
    pub ethertype: EthernetProtocol,
}

impl EthernetRepr {
    /// Reads a frame's header.
    ///
    /// # Errors
    /// [`Error`] if it isn't there.
    pub fn parse<T: AsRef<[u8]> + ?Sized>(frame: &EthernetFrame<&T>) -> Result<EthernetRepr> {
        frame.check_len()?;
        Ok(EthernetRepr { src_addr: frame.src_addr(), dst_addr: frame.dst_addr(), ethertype: frame.ethertype() })
    }

    /// The octets that `emit` writes.
    pub const fn buffer_len(&self) -> usize {
        ETHERNET_HEADER_LEN
    }

    /// Writes the header.
    ///
    /// # Panics
    /// If the frame has fewer octets.
    pub fn emit<T: AsRef<[u8]> + AsMut<[u8]>>(&self, frame: &mut EthernetFrame<T>) {
        frame.set_src_addr(self.src_addr);
        frame.set_dst_addr(self.dst_addr);
        frame.set_ethertype(self.ethertype);
    }
}
