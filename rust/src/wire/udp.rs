//! UDP (RFC 768).
use super::forms::{folded, pseudo_header, sum};
use super::{Error, IpAddress, IpProtocol, Result};
use crate::checksum::ChecksumCapabilities;
use core::fmt;

/// The octets of a header of UDP.
pub const UDP_HEADER_LEN: usize = 8;

view! {
    /// A datagram of UDP.
    UdpPacket
}

impl<T: AsRef<[u8]>> UdpPacket<T> {
    /// Tests that its header and its payload are there.
    ///
    /// # Errors
    /// [`Error`] if not, or if it says that it is shorter than its header.
    pub fn check_len(&self) -> Result<()> {
        let len = self.buffer.as_ref().len();
        if len < UDP_HEADER_LEN {
            return Err(Error);
        }
        let told = usize::from(self.len());
        if len < told || told < UDP_HEADER_LEN { Err(Error) } else { Ok(()) }
    }

    /// The source's port: 0 if it takes no replies.
    pub fn src_port(&self) -> u16 {
        self.u16_at(0)
    }

    /// The destination's port.
    pub fn dst_port(&self) -> u16 {
        self.u16_at(2)
    }

    /// Its octets, with the header.
    #[allow(clippy::len_without_is_empty)]
    pub fn len(&self) -> u16 {
        self.u16_at(4)
    }

    /// The checksum: 0 if there is none.
    pub fn checksum(&self) -> u16 {
        self.u16_at(6)
    }

    /// Whether its checksum is that of the datagram and its pseudo-header, or there is none.
    ///
    /// # Panics
    /// If the addresses are of two versions.
    pub fn verify_checksum(&self, src_addr: &IpAddress, dst_addr: &IpAddress) -> bool {
        self.checksum() == 0 || self.sum(src_addr, dst_addr) == 0xffff
    }

    fn sum(&self, src_addr: &IpAddress, dst_addr: &IpAddress) -> u32 {
        let len = usize::from(self.len());
        folded(pseudo_header(src_addr, dst_addr, IpProtocol::Udp.into(), len) + sum(&self.buffer.as_ref()[..len]))
    }
}

impl<'a, T: AsRef<[u8]> + ?Sized> UdpPacket<&'a T> {
    /// What is behind its header, to the length that it says.
    pub fn payload(&self) -> &'a [u8] {
        &self.buffer.as_ref()[UDP_HEADER_LEN..usize::from(self.len())]
    }
}

impl<T: AsRef<[u8]> + AsMut<[u8]>> UdpPacket<T> {
    /// Sets the source's port.
    pub fn set_src_port(&mut self, value: u16) {
        self.put(0, &value.to_be_bytes());
    }

    /// Sets the destination's port.
    pub fn set_dst_port(&mut self, value: u16) {
        self.put(2, &value.to_be_bytes());
    }

    /// Sets its octets, with the header.
    pub fn set_len(&mut self, value: u16) {
        self.put(4, &value.to_be_bytes());
    }

    /// Sets the checksum.
    pub fn set_checksum(&mut self, value: u16) {
        self.put(6, &value.to_be_bytes());
    }

    /// Computes the checksum, and sets it: where that is 0, its other form, 0xffff.
    ///
    /// # Panics
    /// If the addresses are of two versions.
    pub fn fill_checksum(&mut self, src_addr: &IpAddress, dst_addr: &IpAddress) {
        self.set_checksum(0);
        let checksum = !(self.sum(src_addr, dst_addr) as u16);
        self.set_checksum(if checksum == 0 { 0xffff } else { checksum });
    }

    /// What is behind its header, to be written.
    pub fn payload_mut(&mut self) -> &mut [u8] {
        let end = usize::from(self.len());
        &mut self.buffer.as_mut()[UDP_HEADER_LEN..end]
    }
}

/// The values of a header of UDP.
#[derive(Clone, Copy, Debug, PartialEq, Eq)]
pub struct UdpRepr {
    /// The source's port.
    pub src_port: u16,
    /// The destination's port.
    pub dst_port: u16,
}

impl UdpRepr {
    /// Reads a datagram's header.
    ///
    /// # Errors
    /// [`Error`]: those of [`UdpPacket::check_len`], the destination's port 0, and, if it is to be verified, a wrong
    /// checksum, or none over IPv6 (RFC 8200 8.1).
    ///
    /// # Panics
    /// If the addresses are of two versions.
    pub fn parse<T: AsRef<[u8]> + ?Sized>(
        packet: &UdpPacket<&T>,
        src_addr: &IpAddress,
        dst_addr: &IpAddress,
        checksum_caps: &ChecksumCapabilities,
    ) -> Result<UdpRepr> {
        packet.check_len()?;
        let is_wrong = !packet.verify_checksum(src_addr, dst_addr)
            || packet.checksum() == 0 && matches!(src_addr, IpAddress::Ipv6(_));
        if packet.dst_port() == 0 || checksum_caps.udp.rx() && is_wrong {
            return Err(Error);
        }
        Ok(UdpRepr { src_port: packet.src_port(), dst_port: packet.dst_port() })
    }

    /// The octets of the header.
    pub const fn header_len(&self) -> usize {
        UDP_HEADER_LEN
    }

    /// Writes the header of a datagram with a payload of so many octets, without a checksum.
    ///
    /// # Panics
    /// If there are fewer octets than the header has, or more than 65,535 together.
    pub fn emit_header<T: AsRef<[u8]> + AsMut<[u8]>>(&self, packet: &mut UdpPacket<T>, payload_len: usize) {
        packet.set_src_port(self.src_port);
        packet.set_dst_port(self.dst_port);
        packet.set_len(u16::try_from(UDP_HEADER_LEN + payload_len).expect("a length of 16 bits"));
        packet.set_checksum(0);
    }

    /// Writes the datagram, with what `emit_payload` writes. The checksum is 0 unless it is to be computed.
    ///
    /// # Panics
    /// If there are fewer octets, or more than 65,535, or the addresses are of two versions.
    pub fn emit<T: AsRef<[u8]> + AsMut<[u8]>>(
        &self,
        packet: &mut UdpPacket<T>,
        src_addr: &IpAddress,
        dst_addr: &IpAddress,
        payload_len: usize,
        emit_payload: impl FnOnce(&mut [u8]),
        checksum_caps: &ChecksumCapabilities,
    ) {
        self.emit_header(packet, payload_len);
        emit_payload(packet.payload_mut());
        if checksum_caps.udp.tx() {
            packet.fill_checksum(src_addr, dst_addr);
        }
    }
}

impl fmt::Display for UdpRepr {
    fn fmt(&self, f: &mut fmt::Formatter<'_>) -> fmt::Result {
        write!(f, "UDP src={} dst={}", self.src_port, self.dst_port)
    }
}
