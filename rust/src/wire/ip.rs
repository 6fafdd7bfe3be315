//! What both versions of IP have.
use super::{Icmpv4Repr, Icmpv6Repr, IpAddress, IpProtocol, IpVersion, Ipv4Packet, Ipv4Repr, Ipv6Packet, Ipv6Repr};
use crate::checksum::ChecksumCapabilities;

/// The values of a header of IP, of either version.
#[derive(Clone, Copy, Debug, PartialEq, Eq)]
pub enum IpRepr {
    /// Of IPv4.
    Ipv4(Ipv4Repr),
    /// Of IPv6.
    Ipv6(Ipv6Repr),
}

impl IpRepr {
    /// The values of a packet that carries so many octets of a protocol.
    ///
    /// # Panics
    /// If the addresses are of two versions, as smoltcp's.
    pub fn new(
        src_addr: IpAddress,
        dst_addr: IpAddress,
        next_header: IpProtocol,
        payload_len: usize,
        hop_limit: u8,
    ) -> IpRepr {
        match (src_addr, dst_addr) {
            (IpAddress::Ipv4(src_addr), IpAddress::Ipv4(dst_addr)) => {
                IpRepr::Ipv4(Ipv4Repr { src_addr, dst_addr, next_header, payload_len, hop_limit })
            }
            (IpAddress::Ipv6(src_addr), IpAddress::Ipv6(dst_addr)) => {
                IpRepr::Ipv6(Ipv6Repr { src_addr, dst_addr, next_header, payload_len, hop_limit })
            }
            _ => panic!("addresses of two versions"),
        }
    }

    /// Its version.
    pub const fn version(&self) -> IpVersion {
        match self {
            IpRepr::Ipv4(_) => IpVersion::Ipv4,
            IpRepr::Ipv6(_) => IpVersion::Ipv6,
        }
    }

    /// Where the packet comes from.
    pub const fn src_addr(&self) -> IpAddress {
        match self {
            IpRepr::Ipv4(repr) => IpAddress::Ipv4(repr.src_addr),
            IpRepr::Ipv6(repr) => IpAddress::Ipv6(repr.src_addr),
        }
    }

    /// Where it goes.
    pub const fn dst_addr(&self) -> IpAddress {
        match self {
            IpRepr::Ipv4(repr) => IpAddress::Ipv4(repr.dst_addr),
            IpRepr::Ipv6(repr) => IpAddress::Ipv6(repr.dst_addr),
        }
    }

    /// The protocol of what it carries.
    pub const fn next_header(&self) -> IpProtocol {
        match self {
            IpRepr::Ipv4(repr) => repr.next_header,
            IpRepr::Ipv6(repr) => repr.next_header,
        }
    }

    /// The octets that it carries.
    pub const fn payload_len(&self) -> usize {
        match self {
            IpRepr::Ipv4(repr) => repr.payload_len,
            IpRepr::Ipv6(repr) => repr.payload_len,
        }
    }

    /// Sets the octets that it carries.
    pub const fn set_payload_len(&mut self, length: usize) {
        match self {
            IpRepr::Ipv4(repr) => repr.payload_len = length,
            IpRepr::Ipv6(repr) => repr.payload_len = length,
        }
    }

    /// The time to live, or the hop limit.
    pub const fn hop_limit(&self) -> u8 {
        match self {
            IpRepr::Ipv4(repr) => repr.hop_limit,
            IpRepr::Ipv6(repr) => repr.hop_limit,
        }
    }

    /// The octets of the header.
    pub const fn header_len(&self) -> usize {
        match self {
            IpRepr::Ipv4(repr) => repr.buffer_len(),
            IpRepr::Ipv6(repr) => repr.buffer_len(),
        }
    }

    /// The octets of the packet.
    pub const fn buffer_len(&self) -> usize {
        self.header_len() + self.payload_len()
    }

    /// Writes the header.
    ///
    /// # Panics
    /// If there are fewer octets, or more than 65,535 in the packet.
    pub fn emit<T: AsRef<[u8]> + AsMut<[u8]>>(&self, buffer: T, checksum_caps: &ChecksumCapabilities) {
        match self {
            IpRepr::Ipv4(repr) => repr.emit(&mut Ipv4Packet::new_unchecked(buffer), checksum_caps),
            IpRepr::Ipv6(repr) => repr.emit(&mut Ipv6Packet::new_unchecked(buffer)),
        }
    }
}

impl From<Ipv4Repr> for IpRepr {
    fn from(repr: Ipv4Repr) -> IpRepr {
        IpRepr::Ipv4(repr)
    }
}

impl From<Ipv6Repr> for IpRepr {
    fn from(repr: Ipv6Repr) -> IpRepr {
        IpRepr::Ipv6(repr)
    }
}

/// The values of a message of ICMP, of either version.
#[derive(Clone, Copy, Debug, PartialEq, Eq)]
pub enum IcmpRepr<'a> {
    /// Of ICMP (RFC 792).
    Ipv4(Icmpv4Repr<'a>),
    /// Of ICMPv6 (RFC 4443).
    Ipv6(Icmpv6Repr<'a>),
}

impl<'a> From<Icmpv4Repr<'a>> for IcmpRepr<'a> {
    fn from(repr: Icmpv4Repr<'a>) -> IcmpRepr<'a> {
        IcmpRepr::Ipv4(repr)
    }
}

impl<'a> From<Icmpv6Repr<'a>> for IcmpRepr<'a> {
    fn from(repr: Icmpv6Repr<'a>) -> IcmpRepr<'a> {
        IcmpRepr::Ipv6(repr)
    }
}
