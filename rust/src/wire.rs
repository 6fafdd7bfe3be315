//! Addresses, networks and endpoints; and the forms of packets, by smoltcp's names.
//!
//! A packet, as [`UdpPacket`], is a view of octets, by fields. A representation, as [`UdpRepr`], has the values of a
//! packet that is well formed: `parse` reads it, `emit` writes it. These are of this crate, and no proof is about them:
//! the library has its own, and reads and writes by these alone. They are for programs with ICMP and raw sockets, and
//! for devices that look at frames.
use core::fmt;
use core::net::{IpAddr, SocketAddr, SocketAddrV4, SocketAddrV6};
use core::str::FromStr;

pub use core::net::{Ipv4Addr as Ipv4Address, Ipv6Addr as Ipv6Address};

#[macro_use]
mod forms;
mod address_ext;
mod arp;
mod dns;
mod ethernet;
mod icmpv4;
mod icmpv6;
mod igmp;
mod ip;
mod ipv4;
mod ipv6;
mod mld;
mod ndisc;
pub mod pretty_print;
mod tcp;
mod udp;

pub use address_ext::{Ipv4AddressExt, Ipv6AddressExt, Ipv6MulticastScope};
pub use arp::{ArpHardware, ArpOperation, ArpPacket, ArpRepr};
pub use dns::DnsQueryType;
pub use ethernet::{ETHERNET_HEADER_LEN, EthernetFrame, EthernetProtocol, EthernetRepr};
pub use icmpv4::{
    Icmpv4DstUnreachable, Icmpv4Message, Icmpv4Packet, Icmpv4ParamProblem, Icmpv4Redirect, Icmpv4Repr,
    Icmpv4TimeExceeded,
};
pub use icmpv6::{
    Icmpv6DstUnreachable, Icmpv6Message, Icmpv6Packet, Icmpv6ParamProblem, Icmpv6Repr, Icmpv6TimeExceeded,
};
pub use igmp::{IgmpMessage, IgmpPacket, IgmpRepr, IgmpVersion};
pub use ip::{IcmpRepr, IpRepr};
pub use ipv4::{IPV4_HEADER_LEN, IPV4_MIN_MTU, Ipv4Packet, Ipv4Repr};
pub use ipv6::{IPV6_HEADER_LEN, IPV6_MIN_MTU, Ipv6Packet, Ipv6Repr};
pub use mld::{MldAddressRecord, MldAddressRecordRepr, MldRecordType, MldRepr};
pub use ndisc::{
    NdiscNeighborFlags, NdiscOption, NdiscOptionRepr, NdiscOptionType, NdiscPrefixInfoFlags, NdiscPrefixInformation,
    NdiscRedirectedHeader, NdiscRepr, NdiscRouterFlags, RawHardwareAddress,
};
pub use pretty_print::{PrettyPrint, PrettyPrinter};
pub use tcp::{TCP_HEADER_LEN, TcpControl, TcpOption, TcpPacket, TcpRepr, TcpSeqNumber, TcpTimestampRepr};
pub use udp::{UDP_HEADER_LEN, UdpPacket, UdpRepr};

/// The octets of the longest hardware address.
pub const MAX_HARDWARE_ADDRESS_LEN: usize = 6;

/// The group of all hosts (RFC 1112, 4).
pub const IPV4_MULTICAST_ALL_SYSTEMS: Ipv4Address = Ipv4Address::new(224, 0, 0, 1);

/// The group of all routers (RFC 1256, 3).
pub const IPV4_MULTICAST_ALL_ROUTERS: Ipv4Address = Ipv4Address::new(224, 0, 0, 2);

/// The group of all hosts on a link (RFC 4291, 2.7.1).
pub const IPV6_LINK_LOCAL_ALL_NODES: Ipv6Address = Ipv6Address::new(0xff02, 0, 0, 0, 0, 0, 0, 1);

/// The group of all routers on a link (RFC 4291, 2.7.1).
pub const IPV6_LINK_LOCAL_ALL_ROUTERS: Ipv6Address = Ipv6Address::new(0xff02, 0, 0, 0, 0, 0, 0, 2);

/// The group to which hosts report their groups (RFC 3810, 5.2.14).
pub const IPV6_LINK_LOCAL_ALL_MLDV2_ROUTERS: Ipv6Address = Ipv6Address::new(0xff02, 0, 0, 0, 0, 0, 0, 0x16);

/// The port of a client of DHCP (RFC 2131, 4.1).
pub const DHCP_CLIENT_PORT: u16 = 68;

/// The port of a server of DHCP (RFC 2131, 4.1).
pub const DHCP_SERVER_PORT: u16 = 67;

/// How many servers of names a lease has at most.
pub const DHCP_MAX_DNS_SERVER_COUNT: usize = 3;

/// Octets that aren't a packet of the form that they are read as, or one with a wrong checksum.
#[derive(Clone, Copy, Debug, PartialEq, Eq)]
pub struct Error;

impl fmt::Display for Error {
    fn fmt(&self, f: &mut fmt::Formatter<'_>) -> fmt::Result {
        f.write_str("wire::Error")
    }
}

impl core::error::Error for Error {}

/// What is read of a packet.
pub type Result<T> = core::result::Result<T, Error>;

/// A text that isn't what it is read as.
#[derive(Clone, Copy, Debug, Default, PartialEq, Eq)]
pub struct ParseError;

impl fmt::Display for ParseError {
    fn fmt(&self, f: &mut fmt::Formatter<'_>) -> fmt::Result {
        f.write_str("neither an address nor a network")
    }
}

impl core::error::Error for ParseError {}

/// A version of IP.
#[derive(Clone, Copy, Debug, PartialEq, Eq, PartialOrd, Ord, Hash)]
pub enum IpVersion {
    /// Version 4 (RFC 791).
    Ipv4,
    /// Version 6 (RFC 8200).
    Ipv6,
}

impl fmt::Display for IpVersion {
    fn fmt(&self, f: &mut fmt::Formatter<'_>) -> fmt::Result {
        f.write_str(match self {
            IpVersion::Ipv4 => "IPv4",
            IpVersion::Ipv6 => "IPv6",
        })
    }
}

enum_with_unknown! {
    /// A protocol over IP, by its number.
    pub enum IpProtocol(u8) {
        /// Hop-by-hop options of IPv6.
        HopByHop = 0,
        /// ICMP.
        Icmp = 1,
        /// IGMP.
        Igmp = 2,
        /// TCP.
        Tcp = 6,
        /// UDP.
        Udp = 17,
        /// A routing header of IPv6.
        Ipv6Route = 43,
        /// A fragment header of IPv6.
        Ipv6Frag = 44,
        /// An encapsulating security payload.
        IpSecEsp = 50,
        /// An authentication header.
        IpSecAh = 51,
        /// ICMPv6.
        Icmpv6 = 58,
        /// Nothing behind the header.
        Ipv6NoNxt = 59,
        /// Destination options of IPv6.
        Ipv6Opts = 60,
    }
}

impl fmt::Display for IpProtocol {
    fn fmt(&self, f: &mut fmt::Formatter<'_>) -> fmt::Result {
        f.write_str(match self {
            IpProtocol::HopByHop => "Hop-by-Hop",
            IpProtocol::Icmp => "ICMP",
            IpProtocol::Igmp => "IGMP",
            IpProtocol::Tcp => "TCP",
            IpProtocol::Udp => "UDP",
            IpProtocol::Ipv6Route => "IPv6-Route",
            IpProtocol::Ipv6Frag => "IPv6-Frag",
            IpProtocol::IpSecEsp => "IPsec-ESP",
            IpProtocol::IpSecAh => "IPsec-AH",
            IpProtocol::Icmpv6 => "ICMPv6",
            IpProtocol::Ipv6NoNxt => "IPv6-NoNxt",
            IpProtocol::Ipv6Opts => "IPv6-Opts",
            IpProtocol::Unknown(number) => return write!(f, "0x{number:02x}"),
        })
    }
}

/// A hardware address of Ethernet.
#[derive(Clone, Copy, Debug, Default, PartialEq, Eq, PartialOrd, Ord, Hash)]
pub struct EthernetAddress(pub [u8; 6]);

impl EthernetAddress {
    /// The broadcast address.
    pub const BROADCAST: EthernetAddress = EthernetAddress([0xff; 6]);

    /// The address of six octets.
    ///
    /// # Panics
    /// If there aren't six, as smoltcp's.
    pub fn from_bytes(octets: &[u8]) -> EthernetAddress {
        let mut own = [0; 6];
        own.copy_from_slice(octets);
        EthernetAddress(own)
    }

    /// Its octets.
    pub const fn as_bytes(&self) -> &[u8] {
        &self.0
    }

    /// Whether it is the broadcast address.
    pub fn is_broadcast(&self) -> bool {
        *self == EthernetAddress::BROADCAST
    }

    /// Whether it is a group's, the broadcast address included.
    pub const fn is_multicast(&self) -> bool {
        self.0[0] & 1 != 0
    }

    /// Whether it is neither broadcast nor a group's.
    pub fn is_unicast(&self) -> bool {
        !(self.is_broadcast() || self.is_multicast())
    }
}

impl FromStr for EthernetAddress {
    type Err = ParseError;

    /// Six octets of two hex digits, with `-` or `:` between.
    fn from_str(text: &str) -> core::result::Result<EthernetAddress, ParseError> {
        let between = if text.contains('-') { '-' } else { ':' };
        let mut octets = [0; 6];
        let mut parts = text.split(between);
        for octet in &mut octets {
            let digits = parts.next().filter(|part| part.len() == 2 && !part.starts_with('+')).ok_or(ParseError)?;
            *octet = u8::from_str_radix(digits, 16).map_err(|_| ParseError)?;
        }
        if parts.next().is_some() { Err(ParseError) } else { Ok(EthernetAddress(octets)) }
    }
}

impl fmt::Display for EthernetAddress {
    fn fmt(&self, f: &mut fmt::Formatter<'_>) -> fmt::Result {
        let [a, b, c, d, e, g] = self.0;
        write!(f, "{a:02x}-{b:02x}-{c:02x}-{d:02x}-{e:02x}-{g:02x}")
    }
}

/// What an interface is known by on its medium.
#[derive(Clone, Copy, Debug, PartialEq, Eq, PartialOrd, Ord, Hash)]
pub enum HardwareAddress {
    /// The medium has no hardware addresses.
    Ip,
    /// An address on Ethernet.
    Ethernet(EthernetAddress),
}

impl HardwareAddress {
    /// Its octets: none where the medium has no hardware addresses.
    pub const fn as_bytes(&self) -> &[u8] {
        match self {
            HardwareAddress::Ip => &[],
            HardwareAddress::Ethernet(address) => address.as_bytes(),
        }
    }

    /// Whether it is one host's.
    ///
    /// # Panics
    /// Where the medium has no hardware addresses, as smoltcp's.
    pub fn is_unicast(&self) -> bool {
        match self {
            HardwareAddress::Ip => panic!("the medium has no hardware addresses"),
            HardwareAddress::Ethernet(address) => address.is_unicast(),
        }
    }

    /// Whether it is all hosts'.
    ///
    /// # Panics
    /// Where the medium has no hardware addresses, as smoltcp's.
    pub fn is_broadcast(&self) -> bool {
        match self {
            HardwareAddress::Ip => panic!("the medium has no hardware addresses"),
            HardwareAddress::Ethernet(address) => address.is_broadcast(),
        }
    }
}

impl From<EthernetAddress> for HardwareAddress {
    fn from(address: EthernetAddress) -> HardwareAddress {
        HardwareAddress::Ethernet(address)
    }
}

impl fmt::Display for HardwareAddress {
    fn fmt(&self, f: &mut fmt::Formatter<'_>) -> fmt::Result {
        match self {
            HardwareAddress::Ip => f.write_str("no hardware addr"),
            HardwareAddress::Ethernet(address) => address.fmt(f),
        }
    }
}

/// An address of either version.
#[derive(Clone, Copy, Debug, PartialEq, Eq, PartialOrd, Ord, Hash)]
pub enum IpAddress {
    /// An IPv4 address.
    Ipv4(Ipv4Address),
    /// An IPv6 address.
    Ipv6(Ipv6Address),
}

impl IpAddress {
    /// The IPv4 address of four octets.
    pub const fn v4(a: u8, b: u8, c: u8, d: u8) -> IpAddress {
        IpAddress::Ipv4(Ipv4Address::new(a, b, c, d))
    }

    /// The IPv6 address of eight groups.
    #[allow(clippy::too_many_arguments)]
    pub const fn v6(a: u16, b: u16, c: u16, d: u16, e: u16, f: u16, g: u16, h: u16) -> IpAddress {
        IpAddress::Ipv6(Ipv6Address::new(a, b, c, d, e, f, g, h))
    }

    /// Its version.
    pub const fn version(&self) -> IpVersion {
        match self {
            IpAddress::Ipv4(_) => IpVersion::Ipv4,
            IpAddress::Ipv6(_) => IpVersion::Ipv6,
        }
    }

    /// Whether it is 0.0.0.0 or ::.
    pub const fn is_unspecified(&self) -> bool {
        match self {
            IpAddress::Ipv4(address) => address.is_unspecified(),
            IpAddress::Ipv6(address) => address.is_unspecified(),
        }
    }

    /// Whether it is a group's.
    pub const fn is_multicast(&self) -> bool {
        match self {
            IpAddress::Ipv4(address) => address.is_multicast(),
            IpAddress::Ipv6(address) => address.is_multicast(),
        }
    }

    /// Whether it is 255.255.255.255.
    pub const fn is_broadcast(&self) -> bool {
        match self {
            IpAddress::Ipv4(address) => address.is_broadcast(),
            IpAddress::Ipv6(_) => false,
        }
    }

    /// Whether it is none of these three.
    pub const fn is_unicast(&self) -> bool {
        !(self.is_broadcast() || self.is_multicast() || self.is_unspecified())
    }
}

impl From<Ipv4Address> for IpAddress {
    fn from(address: Ipv4Address) -> IpAddress {
        IpAddress::Ipv4(address)
    }
}

impl From<Ipv6Address> for IpAddress {
    fn from(address: Ipv6Address) -> IpAddress {
        IpAddress::Ipv6(address)
    }
}

impl From<IpAddr> for IpAddress {
    fn from(address: IpAddr) -> IpAddress {
        match address {
            IpAddr::V4(address) => IpAddress::Ipv4(address),
            IpAddr::V6(address) => IpAddress::Ipv6(address),
        }
    }
}

impl From<IpAddress> for IpAddr {
    fn from(address: IpAddress) -> IpAddr {
        match address {
            IpAddress::Ipv4(address) => IpAddr::V4(address),
            IpAddress::Ipv6(address) => IpAddr::V6(address),
        }
    }
}

impl FromStr for IpAddress {
    type Err = ParseError;

    fn from_str(text: &str) -> core::result::Result<IpAddress, ParseError> {
        text.parse::<IpAddr>().map(IpAddress::from).map_err(|_| ParseError)
    }
}

impl fmt::Display for IpAddress {
    fn fmt(&self, f: &mut fmt::Formatter<'_>) -> fmt::Result {
        match self {
            IpAddress::Ipv4(address) => address.fmt(f),
            IpAddress::Ipv6(address) => address.fmt(f),
        }
    }
}

macro_rules! cidr {
    ($name:ident, $address:ty, $bits:literal, $number:ty) => {
        /// An address with the length of its network's prefix.
        #[derive(Clone, Copy, Debug, PartialEq, Eq, PartialOrd, Ord, Hash)]
        pub struct $name {
            address: $address,
            prefix_len: u8,
        }

        impl $name {
            /// An address and the length of its prefix in bits.
            ///
            /// # Panics
            /// If the prefix is longer than the address, as smoltcp's.
            pub const fn new(address: $address, prefix_len: u8) -> $name {
                assert!(prefix_len <= $bits);
                $name { address, prefix_len }
            }

            /// The address.
            pub const fn address(&self) -> $address {
                self.address
            }

            /// The length of the prefix in bits.
            pub const fn prefix_len(&self) -> u8 {
                self.prefix_len
            }

            /// Whether an address is in this network.
            pub fn contains_addr(&self, address: &$address) -> bool {
                <$number>::from(self.address) & self.mask() == <$number>::from(*address) & self.mask()
            }

            /// Whether another network is a part of this one.
            pub fn contains_subnet(&self, subnet: &$name) -> bool {
                self.prefix_len <= subnet.prefix_len && self.contains_addr(&subnet.address)
            }

            /// This network by its first address.
            pub fn network(&self) -> $name {
                $name { address: (<$number>::from(self.address) & self.mask()).into(), prefix_len: self.prefix_len }
            }

            fn mask(&self) -> $number {
                <$number>::MAX.checked_shl(u32::from($bits - self.prefix_len)).unwrap_or(0)
            }
        }

        impl FromStr for $name {
            type Err = ParseError;

            fn from_str(text: &str) -> core::result::Result<$name, ParseError> {
                let (address, prefix_len) = text.split_once('/').ok_or(ParseError)?;
                let address = address.parse().map_err(|_| ParseError)?;
                match prefix_len.parse() {
                    Ok(prefix_len) if prefix_len <= $bits => Ok($name { address, prefix_len }),
                    _ => Err(ParseError),
                }
            }
        }

        impl fmt::Display for $name {
            fn fmt(&self, f: &mut fmt::Formatter<'_>) -> fmt::Result {
                write!(f, "{}/{}", self.address, self.prefix_len)
            }
        }
    };
}

cidr!(Ipv4Cidr, Ipv4Address, 32, u32);
cidr!(Ipv6Cidr, Ipv6Address, 128, u128);

impl Ipv4Cidr {
    /// An address with a mask in place of a prefix's length.
    ///
    /// # Errors
    /// [`Error`] if the mask isn't one bit or more, all of them before the first that is 0.
    pub fn from_netmask(addr: Ipv4Address, netmask: Ipv4Address) -> Result<Ipv4Cidr> {
        let mask = u32::from(netmask);
        if mask == 0 || mask.leading_ones() != mask.count_ones() {
            return Err(Error);
        }
        Ok(Ipv4Cidr { address: addr, prefix_len: mask.count_ones() as u8 })
    }

    /// The mask of this network.
    pub fn netmask(&self) -> Ipv4Address {
        self.mask().into()
    }

    /// The address to which all in this network listen. `None` if it has one or two addresses (RFC 3021).
    pub fn broadcast(&self) -> Option<Ipv4Address> {
        (self.prefix_len < 31).then(|| (u32::from(self.address) | !self.mask()).into())
    }
}

impl Ipv6Cidr {
    /// The address of a prefix of 64 bits that is formed from a hardware address of Ethernet (RFC 4291, appendix A).
    ///
    /// `None` if the prefix has another length, or the medium no hardware addresses.
    pub fn from_link_prefix(link_prefix: &Ipv6Cidr, interface_identifier: HardwareAddress) -> Option<Ipv6Cidr> {
        let HardwareAddress::Ethernet(EthernetAddress([a, b, c, d, e, f])) = interface_identifier else { return None };
        if link_prefix.prefix_len != 64 {
            return None;
        }
        let mut octets = link_prefix.address.octets();
        octets[8..].copy_from_slice(&[a ^ 2, b, c, 0xff, 0xfe, d, e, f]);
        Some(Ipv6Cidr::new(octets.into(), 64))
    }
}

/// An address of either version with the length of its network's prefix.
#[derive(Clone, Copy, Debug, PartialEq, Eq, PartialOrd, Ord, Hash)]
pub enum IpCidr {
    /// Of IPv4.
    Ipv4(Ipv4Cidr),
    /// Of IPv6.
    Ipv6(Ipv6Cidr),
}

impl IpCidr {
    /// An address and the length of its prefix in bits.
    ///
    /// # Panics
    /// If the prefix is longer than the address, as smoltcp's.
    pub const fn new(address: IpAddress, prefix_len: u8) -> IpCidr {
        match address {
            IpAddress::Ipv4(address) => IpCidr::Ipv4(Ipv4Cidr::new(address, prefix_len)),
            IpAddress::Ipv6(address) => IpCidr::Ipv6(Ipv6Cidr::new(address, prefix_len)),
        }
    }

    /// The address.
    pub const fn address(&self) -> IpAddress {
        match self {
            IpCidr::Ipv4(cidr) => IpAddress::Ipv4(cidr.address()),
            IpCidr::Ipv6(cidr) => IpAddress::Ipv6(cidr.address()),
        }
    }

    /// The length of the prefix in bits.
    pub const fn prefix_len(&self) -> u8 {
        match self {
            IpCidr::Ipv4(cidr) => cidr.prefix_len(),
            IpCidr::Ipv6(cidr) => cidr.prefix_len(),
        }
    }

    /// Whether an address is in this network.
    pub fn contains_addr(&self, address: &IpAddress) -> bool {
        match (self, address) {
            (IpCidr::Ipv4(cidr), IpAddress::Ipv4(address)) => cidr.contains_addr(address),
            (IpCidr::Ipv6(cidr), IpAddress::Ipv6(address)) => cidr.contains_addr(address),
            _ => false,
        }
    }
}

impl IpCidr {
    /// Whether another network is a part of this one.
    pub fn contains_subnet(&self, subnet: &IpCidr) -> bool {
        match (self, subnet) {
            (IpCidr::Ipv4(cidr), IpCidr::Ipv4(subnet)) => cidr.contains_subnet(subnet),
            (IpCidr::Ipv6(cidr), IpCidr::Ipv6(subnet)) => cidr.contains_subnet(subnet),
            _ => false,
        }
    }

    /// This network by its first address.
    pub fn network(&self) -> IpCidr {
        match self {
            IpCidr::Ipv4(cidr) => IpCidr::Ipv4(cidr.network()),
            IpCidr::Ipv6(cidr) => IpCidr::Ipv6(cidr.network()),
        }
    }
}

impl From<Ipv4Cidr> for IpCidr {
    fn from(cidr: Ipv4Cidr) -> IpCidr {
        IpCidr::Ipv4(cidr)
    }
}

impl From<Ipv6Cidr> for IpCidr {
    fn from(cidr: Ipv6Cidr) -> IpCidr {
        IpCidr::Ipv6(cidr)
    }
}

impl FromStr for IpCidr {
    type Err = ParseError;

    fn from_str(text: &str) -> core::result::Result<IpCidr, ParseError> {
        text.parse().map(IpCidr::Ipv4).or_else(|_| text.parse().map(IpCidr::Ipv6))
    }
}

impl fmt::Display for IpCidr {
    fn fmt(&self, f: &mut fmt::Formatter<'_>) -> fmt::Result {
        match self {
            IpCidr::Ipv4(cidr) => cidr.fmt(f),
            IpCidr::Ipv6(cidr) => cidr.fmt(f),
        }
    }
}

/// One end of a datagram: an address and a port.
#[derive(Clone, Copy, Debug, PartialEq, Eq, PartialOrd, Ord, Hash)]
pub struct IpEndpoint {
    /// The address.
    pub addr: IpAddress,
    /// The port.
    pub port: u16,
}

impl IpEndpoint {
    /// An address and a port.
    pub const fn new(addr: IpAddress, port: u16) -> IpEndpoint {
        IpEndpoint { addr, port }
    }
}

impl<T: Into<IpAddress>> From<(T, u16)> for IpEndpoint {
    fn from((addr, port): (T, u16)) -> IpEndpoint {
        IpEndpoint { addr: addr.into(), port }
    }
}

impl From<SocketAddr> for IpEndpoint {
    fn from(address: SocketAddr) -> IpEndpoint {
        IpEndpoint { addr: address.ip().into(), port: address.port() }
    }
}

impl From<SocketAddrV4> for IpEndpoint {
    fn from(address: SocketAddrV4) -> IpEndpoint {
        IpEndpoint { addr: (*address.ip()).into(), port: address.port() }
    }
}

impl From<SocketAddrV6> for IpEndpoint {
    fn from(address: SocketAddrV6) -> IpEndpoint {
        IpEndpoint { addr: (*address.ip()).into(), port: address.port() }
    }
}

impl FromStr for IpEndpoint {
    type Err = ParseError;

    fn from_str(text: &str) -> core::result::Result<IpEndpoint, ParseError> {
        text.parse::<SocketAddr>().map(IpEndpoint::from).map_err(|_| ParseError)
    }
}

impl fmt::Display for IpEndpoint {
    fn fmt(&self, f: &mut fmt::Formatter<'_>) -> fmt::Result {
        match self.addr {
            IpAddress::Ipv4(address) => write!(f, "{address}:{}", self.port),
            IpAddress::Ipv6(address) => write!(f, "[{address}]:{}", self.port),
        }
    }
}

/// Where a socket listens: at a port of one address, or of any.
///
/// Made of an address that is unspecified, it is of any address, as smoltcp's. One whose `addr` is set to such an
/// address by hand gets only what comes to broadcast addresses and groups.
#[derive(Clone, Copy, Debug, Default, PartialEq, Eq, PartialOrd, Ord, Hash)]
pub struct IpListenEndpoint {
    /// The address: `None` for any.
    pub addr: Option<IpAddress>,
    /// The port.
    pub port: u16,
}

impl IpListenEndpoint {
    /// Whether it has a port.
    pub const fn is_specified(&self) -> bool {
        self.port != 0
    }
}

impl From<u16> for IpListenEndpoint {
    fn from(port: u16) -> IpListenEndpoint {
        IpListenEndpoint { addr: None, port }
    }
}

impl From<IpEndpoint> for IpListenEndpoint {
    fn from(end: IpEndpoint) -> IpListenEndpoint {
        (end.addr, end.port).into()
    }
}

impl<T: Into<IpAddress>> From<(T, u16)> for IpListenEndpoint {
    fn from((addr, port): (T, u16)) -> IpListenEndpoint {
        IpListenEndpoint { addr: Some(addr.into()).filter(|addr| !addr.is_unspecified()), port }
    }
}

impl fmt::Display for IpListenEndpoint {
    fn fmt(&self, f: &mut fmt::Formatter<'_>) -> fmt::Result {
        match self.addr {
            Some(addr) => IpEndpoint::new(addr, self.port).fmt(f),
            None => write!(f, "*:{}", self.port),
        }
    }
}
