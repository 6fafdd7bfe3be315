//! Packets that wait in a socket for its queue: sent before the socket is open, or lent to be written.
use crate::host::{Host, Segment};
use crate::wire::{IpAddress, IpEndpoint};
use alloc::vec::Vec;

/// Packets with their destinations. An open socket hands them to its queue with its next call, or with the next poll.
#[derive(Debug, Default)]
pub(super) struct Outbox {
    packets: Vec<(Destination, Vec<u8>)>,
}

impl Outbox {
    pub(super) fn is_empty(&self) -> bool {
        self.packets.is_empty()
    }

    /// How many packets wait.
    pub(super) fn packets(&self) -> usize {
        self.packets.len()
    }

    /// How many octets wait.
    pub(super) fn octets(&self) -> usize {
        self.packets.iter().map(|(_, octets)| octets.len()).sum()
    }

    /// Has a packet wait, for which there is room, and lends its octets.
    pub(super) fn push(&mut self, to: Destination, octets: Vec<u8>) -> &mut [u8] {
        self.packets.push((to, octets));
        self.packets.last_mut().map_or(&mut [], |(_, octets)| octets)
    }

    /// Hands all to the socket, which is open by this number. What is never sent, as it is too long, is dropped.
    pub(super) fn send_all(&mut self, host: &mut Host, number: u32) {
        for (to, octets) in self.packets.drain(..) {
            // There was room for it when it came here.
            let _ = to.send(host, number, &octets);
        }
    }

    /// Drops all.
    pub(super) fn clear(&mut self) {
        self.packets.clear();
    }
}

/// Where a packet is to go.
#[derive(Clone, Copy, Debug)]
pub(super) enum Destination {
    /// A datagram, to an end.
    Udp(IpEndpoint),
    /// A message, to an address.
    Icmp(IpAddress),
    /// A packet that says so itself.
    Raw,
    /// A segment of TCP.
    Segment(Segment),
}

/// The octets of the longest packet of IPv4 that is sent.
const MAX_CUT: usize = 4096;

impl Destination {
    /// Whether the library takes it.
    pub(super) fn is_addressable(&self) -> bool {
        match self {
            Destination::Udp(end) => end.port != 0 && !end.addr.is_unspecified(),
            Destination::Icmp(address) => !address.is_unspecified(),
            Destination::Raw => true,
            Destination::Segment(segment) => segment.remote.port != 0 && !segment.remote.addr.is_unspecified(),
        }
    }

    /// Whether the library takes so many octets to it, on a link whose packets have at most `ip_mtu`: over IPv4 in a
    /// packet of up to 4096, which goes in pieces as the link's are shorter, over IPv6 in one of the link's.
    pub(super) fn may_carry(&self, size: usize, ip_mtu: usize) -> bool {
        match self {
            Destination::Raw | Destination::Segment(_) => true,
            Destination::Udp(IpEndpoint { addr: IpAddress::Ipv4(_), .. }) => size.saturating_add(28) <= MAX_CUT,
            Destination::Udp(IpEndpoint { addr: IpAddress::Ipv6(_), .. }) => size.saturating_add(48) <= ip_mtu,
            Destination::Icmp(IpAddress::Ipv4(_)) => size.saturating_add(20) <= MAX_CUT,
            Destination::Icmp(IpAddress::Ipv6(_)) => size.saturating_add(40) <= ip_mtu,
        }
    }

    #[inline]
    pub(super) fn send(&self, host: &mut Host, number: u32, octets: &[u8]) -> Result<(), crate::Error> {
        match *self {
            Destination::Udp(remote) => host.udp_send(number, remote, octets),
            Destination::Icmp(remote) => host.icmp_send(number, remote, octets),
            Destination::Raw => host.raw_send(number, octets),
            Destination::Segment(segment) => host.tcp_send(number, segment, octets),
        }
    }
}
