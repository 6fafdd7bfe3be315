//! What a list of features gives: it is built with each of feature_lists.txt. Nothing of it runs.
#![allow(dead_code, unused_imports)]

#[cfg(feature = "multicast")]
use fumitorygate::iface::MulticastError;
#[cfg(any(feature = "medium-ethernet", feature = "medium-ip"))]
use fumitorygate::iface::{
    Config, Context, Interface, PollResult, Route, Routes, SocketHandle, SocketSet, SocketStorage,
};
#[cfg(feature = "phy-raw_socket")]
use fumitorygate::phy::RawSocket;
#[cfg(feature = "phy-tuntap_interface")]
use fumitorygate::phy::{TunTapInterface, wait};
#[cfg(feature = "socket-dhcpv4")]
use fumitorygate::socket::dhcpv4;
#[cfg(feature = "socket-dns")]
use fumitorygate::socket::dns;
#[cfg(feature = "socket-icmp")]
use fumitorygate::socket::icmp;
#[cfg(feature = "socket-raw")]
use fumitorygate::socket::raw;
#[cfg(feature = "socket-tcp")]
use fumitorygate::socket::tcp;
#[cfg(feature = "socket-udp")]
use fumitorygate::socket::udp;
use fumitorygate::time::{Duration, Instant};
#[cfg(feature = "medium-ethernet")]
use fumitorygate::wire::{ArpRepr, EthernetAddress, EthernetFrame, EthernetProtocol};
#[cfg(feature = "proto-ipv4")]
use fumitorygate::wire::{Icmpv4Repr, Ipv4Address, Ipv4AddressExt, Ipv4Cidr, Ipv4Packet, Ipv4Repr};
#[cfg(feature = "proto-ipv6")]
use fumitorygate::wire::{Icmpv6Repr, Ipv6Address, Ipv6AddressExt, Ipv6Cidr, Ipv6Packet, Ipv6Repr, NdiscRepr};
use fumitorygate::wire::{IpAddress, IpCidr, IpEndpoint, IpProtocol};
#[cfg(feature = "proto-ipv4")]
use fumitorygate::{config, phy, storage};

/// An interface over a loopback, as smoltcp's documentation has it.
#[cfg(all(feature = "medium-ethernet", feature = "proto-ipv4"))]
fn interface() -> Interface {
    let mut device = phy::Loopback::new(phy::Medium::Ethernet);
    let config = Config::new(EthernetAddress([2, 0, 0, 0, 0, 1]).into());
    let mut iface = Interface::new(config, &mut device, Instant::ZERO);
    iface.update_ip_addrs(|addrs| addrs.push(IpCidr::new(IpAddress::v4(127, 0, 0, 1), 8)).unwrap());
    iface
}

/// Two sockets in storage that the program lends.
#[cfg(all(feature = "socket-tcp", feature = "socket-udp"))]
fn sockets<'a>(storage: &'a mut [SocketStorage<'a>; 2], octets: &'a mut [u8]) {
    let (rx, tx) = octets.split_at_mut(512);
    let socket = tcp::Socket::new(tcp::SocketBuffer::new(rx), tcp::SocketBuffer::new(tx));
    let mut sockets = SocketSet::new(&mut storage[..]);
    sockets.add(socket);
}
