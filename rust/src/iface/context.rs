//! What a socket knows its interface by.
use super::Addresses;
use crate::shared::Shared;
use crate::time::Instant;
use crate::wire::{IpAddress, IpCidr, Ipv4Address, Ipv6Address, Ipv6AddressExt};

/// What [`tcp::Socket::connect`](crate::socket::tcp::Socket::connect) and
/// [`dns::Socket::start_query`](crate::socket#modules) take, to know the interface.
#[derive(Debug)]
pub struct Context(pub(crate) Shared);

impl Context {
    /// The instant of the last call of the interface with one.
    pub fn now(&self) -> Instant {
        self.0.whole(|inner| inner.now)
    }

    /// The octets of the longest packet of IP on its link.
    pub fn ip_mtu(&self) -> usize {
        self.0.ip_mtu()
    }

    /// The first IPv4 address of the interface.
    pub fn ipv4_addr(&self) -> Option<Ipv4Address> {
        self.ip_addrs().iter().find_map(|cidr| match cidr {
            IpCidr::Ipv4(cidr) => Some(cidr.address()),
            IpCidr::Ipv6(_) => None,
        })
    }

    /// The first IPv6 address of the interface.
    pub fn ipv6_addr(&self) -> Option<Ipv6Address> {
        self.ip_addrs().iter().find_map(|cidr| match cidr {
            IpCidr::Ipv4(_) => None,
            IpCidr::Ipv6(cidr) => Some(cidr.address()),
        })
    }

    /// Whether an address is the solicited-node group of one of the interface's (RFC 4291, 2.7.1).
    pub fn has_solicited_node(&self, addr: Ipv6Address) -> bool {
        self.ip_addrs().iter().any(|cidr| match cidr {
            IpCidr::Ipv4(_) => false,
            IpCidr::Ipv6(cidr) => cidr.address().x_is_unicast() && cidr.address().solicited_node() == addr,
        })
    }

    /// The own address that packets to a destination are sent from, where their socket names none: as
    /// [`Interface::get_source_address`](super::Interface::get_source_address).
    pub fn get_source_address(&self, dst_addr: &IpAddress) -> Option<IpAddress> {
        self.0.with(|host| host.source_for(*dst_addr))
    }

    fn ip_addrs(&self) -> Addresses {
        self.0.with(|host| Addresses::of(host, usize::MAX))
    }
}
