//! IPv6 (RFC 8200).
use super::{Error, IpProtocol, Ipv6Address, Result};
use core::fmt;

/// The octets of a header of IPv6.
pub const IPV6_HEADER_LEN: usize = 40;

/// The octets of a packet that each link takes (RFC 8200 5).
pub const IPV6_MIN_MTU: usize = 1280;

view! {
    /// A packet of IPv6.
    Ipv6Packet
}

impl<T: AsRef<[u8]>> Ipv6Packet<T> {
    /// Tests that its header and all that it carries are there.
    ///
    /// # Errors
    /// [`Error`] if not.
    pub fn check_len(&self) -> Result<()> {
        let len = self.buffer.as_ref().len();
        if len < IPV6_HEADER_LEN || len < self.total_len() { Err(Error) } else { Ok(()) }
    }

    /// The octets of its header.
    pub const fn header_len(&self) -> usize {
        IPV6_HEADER_LEN
    }

    /// The version.
    pub fn version(&self) -> u8 {
        self.u8_at(0) >> 4
    }

    /// The traffic class.
    pub fn traffic_class(&self) -> u8 {
        (self.u16_at(0) >> 4) as u8
    }

    /// The flow label.
    pub fn flow_label(&self) -> u32 {
        u32::from_be_bytes(self.octets_at(0)) & 0x000f_ffff
    }

    /// The octets behind its header.
    pub fn payload_len(&self) -> u16 {
        self.u16_at(4)
    }

    /// Its octets, with the header.
    pub fn total_len(&self) -> usize {
        IPV6_HEADER_LEN + usize::from(self.payload_len())
    }

    /// The protocol of what it carries, or of its first extension header.
    pub fn next_header(&self) -> IpProtocol {
        self.u8_at(6).into()
    }

    /// The hop limit.
    pub fn hop_limit(&self) -> u8 {
        self.u8_at(7)
    }

    /// Where it comes from.
    pub fn src_addr(&self) -> Ipv6Address {
        self.octets_at::<16>(8).into()
    }

    /// Where it goes.
    pub fn dst_addr(&self) -> Ipv6Address {
        self.octets_at::<16>(24).into()
    }
}

impl<'a, T: AsRef<[u8]> + ?Sized> Ipv6Packet<&'a T> {
    /// What is behind its header, to the length that it says.
    pub fn payload(&self) -> &'a [u8] {
        &self.buffer.as_ref()[IPV6_HEADER_LEN..self.total_len()]
    }
}

impl<T: AsRef<[u8]> + AsMut<[u8]>> Ipv6Packet<T> {
    /// Sets the version.
    pub fn set_version(&mut self, value: u8) {
        let low = self.u8_at(0) & 0x0f;
        self.put(0, &[value << 4 | low]);
    }

    /// Sets the traffic class.
    pub fn set_traffic_class(&mut self, value: u8) {
        let rest = self.u16_at(0) & 0xf00f;
        self.put(0, &(rest | u16::from(value) << 4).to_be_bytes());
    }

    /// Sets the flow label: its lower 20 bits.
    pub fn set_flow_label(&mut self, value: u32) {
        let rest = u32::from_be_bytes(self.octets_at(0)) & 0xfff0_0000;
        self.put(0, &(rest | value & 0x000f_ffff).to_be_bytes());
    }

    /// Sets the octets behind its header.
    pub fn set_payload_len(&mut self, value: u16) {
        self.put(4, &value.to_be_bytes());
    }

    /// Sets the protocol of what it carries.
    pub fn set_next_header(&mut self, value: IpProtocol) {
        self.put(6, &[value.into()]);
    }

    /// Sets the hop limit.
    pub fn set_hop_limit(&mut self, value: u8) {
        self.put(7, &[value]);
    }

    /// Sets where it comes from.
    pub fn set_src_addr(&mut self, value: Ipv6Address) {
        self.put(8, &value.octets());
    }

    /// Sets where it goes.
    pub fn set_dst_addr(&mut self, value: Ipv6Address) {
        self.put(24, &value.octets());
    }

    /// What is behind its header, to be written.
    pub fn payload_mut(&mut self) -> &mut [u8] {
        let end = self.total_len();
        &mut self.buffer.as_mut()[IPV6_HEADER_LEN..end]
    }
}

/// The values of a header of IPv6.
#[derive(Clone, Copy, Debug, PartialEq, Eq)]
pub struct Ipv6Repr {
    /// Where the packet comes from.
    pub src_addr: Ipv6Address,
    /// Where it goes.
    pub dst_addr: Ipv6Address,
    /// The protocol of what it carries, or of its first extension header.
    pub next_header: IpProtocol,
    /// The octets behind its header.
    pub payload_len: usize,
    /// The hop limit.
    pub hop_limit: u8,
}

impl Ipv6Repr {
    /// Reads a packet's header.
    ///
    /// # Errors
    /// [`Error`] if not all of the packet is there, or it has another version than 6.
    pub fn parse<T: AsRef<[u8]> + ?Sized>(packet: &Ipv6Packet<&T>) -> Result<Ipv6Repr> {
        packet.check_len()?;
        if packet.version() != 6 {
            return Err(Error);
        }
        Ok(Ipv6Repr {
            src_addr: packet.src_addr(),
            dst_addr: packet.dst_addr(),
            next_header: packet.next_header(),
            payload_len: usize::from(packet.payload_len()),
            hop_limit: packet.hop_limit(),
        })
    }

    /// The octets that `emit` writes.
    pub const fn buffer_len(&self) -> usize {
        IPV6_HEADER_LEN
    }

    /// Writes the header, with traffic class and flow label 0.
    ///
    /// # Panics
    /// If there are fewer octets, or more than 65,535 behind the header.
    pub fn emit<T: AsRef<[u8]> + AsMut<[u8]>>(&self, packet: &mut Ipv6Packet<T>) {
        packet.set_version(6);
        packet.set_traffic_class(0);
        packet.set_flow_label(0);
        packet.set_payload_len(u16::try_from(self.payload_len).expect("a length of 16 bits"));
        packet.set_hop_limit(self.hop_limit);
        packet.set_next_header(self.next_header);
        packet.set_src_addr(self.src_addr);
        packet.set_dst_addr(self.dst_addr);
    }
}

impl fmt::Display for Ipv6Repr {
    fn fmt(&self, f: &mut fmt::Formatter<'_>) -> fmt::Result {
        write!(
            f,
            "IPv6 src={} dst={} nxt_hdr={} hop_limit={}",
            self.src_addr, self.dst_addr, self.next_header, self.hop_limit
        )
    }
}
