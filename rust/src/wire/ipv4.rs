//! IPv4 (RFC 791).
use super::forms::{folded, sum};
use super::{Error, IpProtocol, Ipv4Address, Result};
use crate::checksum::ChecksumCapabilities;
use core::fmt;

/// The octets of a header of IPv4 without options.
pub const IPV4_HEADER_LEN: usize = 20;

/// The octets of a packet that each link and host takes (RFC 791 3.2).
pub const IPV4_MIN_MTU: usize = 576;

view! {
    /// A packet of IPv4.
    Ipv4Packet
}

impl<T: AsRef<[u8]>> Ipv4Packet<T> {
    /// Tests that its header and all that it carries are there.
    ///
    /// # Errors
    /// [`Error`] if not, or if it says that it is shorter than its header, or the header than 20 octets.
    pub fn check_len(&self) -> Result<()> {
        let len = self.buffer.as_ref().len();
        if len < IPV4_HEADER_LEN {
            return Err(Error);
        }
        let (header_len, total_len) = (usize::from(self.header_len()), usize::from(self.total_len()));
        if header_len < IPV4_HEADER_LEN || total_len < header_len || len < total_len { Err(Error) } else { Ok(()) }
    }

    /// The version.
    pub fn version(&self) -> u8 {
        self.u8_at(0) >> 4
    }

    /// The octets of its header.
    pub fn header_len(&self) -> u8 {
        (self.u8_at(0) & 0x0f) * 4
    }

    /// The differentiated services codepoint (RFC 2474).
    pub fn dscp(&self) -> u8 {
        self.u8_at(1) >> 2
    }

    /// The congestion notification (RFC 3168).
    pub fn ecn(&self) -> u8 {
        self.u8_at(1) & 0x03
    }

    /// Its octets, with the header.
    pub fn total_len(&self) -> u16 {
        self.u16_at(2)
    }

    /// The identification of the packet whose fragments it may be of.
    pub fn ident(&self) -> u16 {
        self.u16_at(4)
    }

    /// Whether it must not be cut.
    pub fn dont_frag(&self) -> bool {
        self.u16_at(6) & 0x4000 != 0
    }

    /// Whether fragments follow it.
    pub fn more_frags(&self) -> bool {
        self.u16_at(6) & 0x2000 != 0
    }

    /// Where what it carries begins in the payload of the whole packet, in octets.
    pub fn frag_offset(&self) -> u16 {
        self.u16_at(6) << 3
    }

    /// The time to live.
    pub fn hop_limit(&self) -> u8 {
        self.u8_at(8)
    }

    /// The protocol of what it carries.
    pub fn next_header(&self) -> IpProtocol {
        self.u8_at(9).into()
    }

    /// The checksum of its header.
    pub fn checksum(&self) -> u16 {
        self.u16_at(10)
    }

    /// Where it comes from.
    pub fn src_addr(&self) -> Ipv4Address {
        self.octets_at::<4>(12).into()
    }

    /// Where it goes.
    pub fn dst_addr(&self) -> Ipv4Address {
        self.octets_at::<4>(16).into()
    }

    /// Whether its checksum is that of its header.
    pub fn verify_checksum(&self) -> bool {
        sum(&self.buffer.as_ref()[..usize::from(self.header_len())]) == 0xffff
    }
}

impl<'a, T: AsRef<[u8]> + ?Sized> Ipv4Packet<&'a T> {
    /// What is behind its header, to the length that it says.
    pub fn payload(&self) -> &'a [u8] {
        &self.buffer.as_ref()[usize::from(self.header_len())..usize::from(self.total_len())]
    }
}

impl<T: AsRef<[u8]> + AsMut<[u8]>> Ipv4Packet<T> {
    /// Sets the version.
    pub fn set_version(&mut self, value: u8) {
        let low = self.u8_at(0) & 0x0f;
        self.put(0, &[value << 4 | low]);
    }

    /// Sets the octets of its header: a multiple of 4.
    pub fn set_header_len(&mut self, value: u8) {
        let high = self.u8_at(0) & 0xf0;
        self.put(0, &[high | (value / 4) & 0x0f]);
    }

    /// Sets the differentiated services codepoint.
    pub fn set_dscp(&mut self, value: u8) {
        let low = self.u8_at(1) & 0x03;
        self.put(1, &[value << 2 | low]);
    }

    /// Sets the congestion notification.
    pub fn set_ecn(&mut self, value: u8) {
        let high = self.u8_at(1) & 0xfc;
        self.put(1, &[high | value & 0x03]);
    }

    /// Sets its octets, with the header.
    pub fn set_total_len(&mut self, value: u16) {
        self.put(2, &value.to_be_bytes());
    }

    /// Sets the identification.
    pub fn set_ident(&mut self, value: u16) {
        self.put(4, &value.to_be_bytes());
    }

    fn set_bits(&mut self, mask: u16, value: u16) {
        let rest = self.u16_at(6) & !mask;
        self.put(6, &(rest | value).to_be_bytes());
    }

    /// Clears the three flags.
    pub fn clear_flags(&mut self) {
        self.set_bits(0xe000, 0);
    }

    /// Sets whether it must not be cut.
    pub fn set_dont_frag(&mut self, value: bool) {
        self.set_bits(0x4000, u16::from(value) << 14);
    }

    /// Sets whether fragments follow it.
    pub fn set_more_frags(&mut self, value: bool) {
        self.set_bits(0x2000, u16::from(value) << 13);
    }

    /// Sets where what it carries begins, in octets: a multiple of 8.
    pub fn set_frag_offset(&mut self, value: u16) {
        self.set_bits(0x1fff, value >> 3);
    }

    /// Sets the time to live.
    pub fn set_hop_limit(&mut self, value: u8) {
        self.put(8, &[value]);
    }

    /// Sets the protocol of what it carries.
    pub fn set_next_header(&mut self, value: IpProtocol) {
        self.put(9, &[value.into()]);
    }

    /// Sets the checksum.
    pub fn set_checksum(&mut self, value: u16) {
        self.put(10, &value.to_be_bytes());
    }

    /// Sets where it comes from.
    pub fn set_src_addr(&mut self, value: Ipv4Address) {
        self.put(12, &value.octets());
    }

    /// Sets where it goes.
    pub fn set_dst_addr(&mut self, value: Ipv4Address) {
        self.put(16, &value.octets());
    }

    /// Computes the checksum of its header, and sets it.
    pub fn fill_checksum(&mut self) {
        self.set_checksum(0);
        let sum = sum(&self.buffer.as_ref()[..usize::from(self.header_len())]);
        self.set_checksum(!(folded(sum) as u16));
    }

    /// What is behind its header, to be written.
    pub fn payload_mut(&mut self) -> &mut [u8] {
        let range = usize::from(self.header_len())..usize::from(self.total_len());
        &mut self.buffer.as_mut()[range]
    }
}

/// The values of a header of IPv4 without options.
#[derive(Clone, Copy, Debug, PartialEq, Eq)]
pub struct Ipv4Repr {
    /// Where the packet comes from.
    pub src_addr: Ipv4Address,
    /// Where it goes.
    pub dst_addr: Ipv4Address,
    /// The protocol of what it carries.
    pub next_header: IpProtocol,
    /// The octets that it carries.
    pub payload_len: usize,
    /// The time to live.
    pub hop_limit: u8,
}

impl Ipv4Repr {
    /// Reads a packet's header. Options are skipped, and so are the fields of fragments.
    ///
    /// # Errors
    /// [`Error`]: those of [`Ipv4Packet::check_len`], another version than 4, and a wrong checksum, if it is to be
    /// verified.
    pub fn parse<T: AsRef<[u8]> + ?Sized>(
        packet: &Ipv4Packet<&T>,
        checksum_caps: &ChecksumCapabilities,
    ) -> Result<Ipv4Repr> {
        packet.check_len()?;
        if packet.version() != 4 || checksum_caps.ipv4.rx() && !packet.verify_checksum() {
            return Err(Error);
        }
        Ok(Ipv4Repr {
            src_addr: packet.src_addr(),
            dst_addr: packet.dst_addr(),
            next_header: packet.next_header(),
            payload_len: packet.payload().len(),
            hop_limit: packet.hop_limit(),
        })
    }

    /// The octets that `emit` writes.
    pub const fn buffer_len(&self) -> usize {
        IPV4_HEADER_LEN
    }

    /// Writes the header, of a packet that must not be cut. The checksum is 0 unless it is to be computed.
    ///
    /// # Panics
    /// If there are fewer octets, or the packet would have more than 65,535.
    pub fn emit<T: AsRef<[u8]> + AsMut<[u8]>>(&self, packet: &mut Ipv4Packet<T>, checksum_caps: &ChecksumCapabilities) {
        packet.set_version(4);
        packet.set_header_len(IPV4_HEADER_LEN as u8);
        packet.set_dscp(0);
        packet.set_ecn(0);
        packet.set_total_len(u16::try_from(IPV4_HEADER_LEN + self.payload_len).expect("a length of 16 bits"));
        packet.set_ident(0);
        packet.clear_flags();
        packet.set_dont_frag(true);
        packet.set_frag_offset(0);
        packet.set_hop_limit(self.hop_limit);
        packet.set_next_header(self.next_header);
        packet.set_src_addr(self.src_addr);
        packet.set_dst_addr(self.dst_addr);
        if checksum_caps.ipv4.tx() { packet.fill_checksum() } else { packet.set_checksum(0) }
    }
}

impl fmt::Display for Ipv4Repr {
    fn fmt(&self, f: &mut fmt::Formatter<'_>) -> fmt::Result {
        write!(f, "IPv4 src={} dst={} proto={}", self.src_addr, self.dst_addr, self.next_header)
    }
}
