//! `Interface`, `SocketSet` and the sockets. What is expected comes from smoltcp's documentation of these calls, from
//! `docs/C.md` and `API.md`.
#![cfg(feature = "alloc")]
mod common;

use common::{OWN, arp, ethernet, ipv4, millis, udp4};
use fumitorygate::Error;
use fumitorygate::config::{IFACE_NEIGHBOR_CACHE_COUNT, REASSEMBLY_BUFFER_COUNT};
use fumitorygate::iface::{
    Config, Conflict, Interface, MulticastError, PollIngressSingleResult, PollResult, Rate, Route, RouteTableFull,
    SocketSet,
};
use fumitorygate::phy::{Loopback, Medium, MemoryDevice};
use fumitorygate::socket::{Socket, icmp, raw, segment, udp};
use fumitorygate::time::{Duration, Instant};
use fumitorygate::wire::{
    EthernetAddress, HardwareAddress, IpAddress, IpCidr, IpEndpoint, IpListenEndpoint, IpProtocol, IpVersion,
    Ipv4Address, Ipv6Address, TcpControl, TcpSeqNumber,
};

const SELF: Ipv4Address = Ipv4Address::new(192, 168, 69, 1);
const PEER: Ipv4Address = Ipv4Address::new(192, 168, 69, 2);
const PEER_LINK: [u8; 6] = [2, 0, 0, 0, 0, 2];

fn interface() -> (MemoryDevice, Interface, SocketSet<'static>) {
    let mut device = MemoryDevice::new(Medium::Ethernet, 1514);
    let mut config = Config::new(EthernetAddress(OWN).into());
    config.sockets = 2;
    let mut iface = Interface::new(config, &mut device, Instant::ZERO);
    iface.update_ip_addrs(|list| list.push(IpCidr::new(SELF.into(), 24)).unwrap());
    let sockets = SocketSet::of(&iface);
    (device, iface, sockets)
}

fn buffer() -> udp::PacketBuffer<'static> {
    udp::PacketBuffer::new([udp::PacketMetadata::EMPTY; 2], [0; 256])
}

fn datagram(payload: &[u8]) -> Vec<u8> {
    ethernet(OWN, PEER_LINK, 0x0800, &udp4(PEER, SELF, (9, 7), payload))
}

/// `docs/C.md`, The configuration: no host waits for ever unless it is told to.
#[test]
fn patience_is_set_from_the_start() {
    let config = Config::new(HardwareAddress::Ip);
    assert_eq!(config.patience, Duration::from_secs(3));
    assert_eq!(config.reassembly_timeout, Duration::from_secs(10));
    assert_eq!((config.random_seed, config.sockets, config.slaac), (0, 8, false));
}

/// What `config` tells as usual is what an interface has unless its `Config` says otherwise.
#[test]
fn usual_numbers_are_told() {
    let config = Config::new(HardwareAddress::Ip);
    assert_eq!(
        (config.neighbors as usize, config.fragmented as usize),
        (IFACE_NEIGHBOR_CACHE_COUNT, REASSEMBLY_BUFFER_COUNT)
    );
}

/// `docs/C.md`, A guard: what claims the own address is dropped, counted and told (RFC 5227 2.4), unless there is no guard.
#[test]
fn a_guard_tells_of_conflicts() {
    let claim = arp(2, [2, 0, 0, 0, 0, 66], SELF, OWN, SELF);
    for is_on in [true, false] {
        let mut device = MemoryDevice::new(Medium::Ethernet, 1514);
        let mut config = Config::new(HardwareAddress::Ethernet(EthernetAddress(OWN)));
        let usual = config.guard.unwrap();
        assert!(usual.own_addresses && usual.loops && !usual.fragments);
        let rate = Rate { interval: Duration::from_millis(10), at_once: 10 };
        assert_eq!((usual.echo_requests, usual.errors, usual.resets), (None, Some(rate), Some(rate)));
        assert_eq!(usual.strangers_stay, Some(Duration::from_secs(20)));
        assert!(usual.turns && usual.reports && usual.routers);
        if !is_on {
            config.guard = None;
        }
        let mut iface = Interface::new(config, &mut device, Instant::ZERO);
        iface.update_ip_addrs(|list| list.push(IpCidr::new(SELF.into(), 24)).unwrap());
        let mut sockets = SocketSet::of(&iface);
        let now = Instant::from_secs(5);
        device.incoming.push_back(claim.clone());
        iface.poll(now, &mut device, &mut sockets);
        assert_eq!(iface.guard_drops().own_address, u64::from(is_on));
        let conflict = Conflict { hardware_addr: EthernetAddress([2, 0, 0, 0, 0, 66]), at: now };
        assert_eq!(iface.guard_conflict(), is_on.then_some(conflict));
        assert_eq!(iface.neighbors().len(), usize::from(!is_on));
    }
}

/// `docs/C.md`, A guard: a neighbour that told its hardware address alone is known for `strangers_stay`, one that spoke for a minute.
#[test]
fn a_stranger_stays_for_less() {
    for (stay, until) in [(Some(Duration::from_secs(20)), 25), (Some(Duration::from_secs(2)), 7), (None, 65)] {
        let mut device = MemoryDevice::new(Medium::Ethernet, 1514);
        let mut config = Config::new(HardwareAddress::Ethernet(EthernetAddress(OWN)));
        config.guard.as_mut().unwrap().strangers_stay = stay;
        let mut iface = Interface::new(config, &mut device, Instant::ZERO);
        iface.update_ip_addrs(|list| list.push(IpCidr::new(SELF.into(), 24)).unwrap());
        let mut sockets = SocketSet::of(&iface);
        device.incoming.push_back(arp(2, PEER_LINK, PEER, OWN, SELF));
        iface.poll(Instant::from_secs(5), &mut device, &mut sockets);
        assert_eq!(iface.neighbors()[0].expires_at, Instant::from_secs(until));
    }
}

/// `docs/C.md`, A guard: of a pinned neighbour messages are taken that tell its hardware address, and no others.
#[test]
fn a_pinned_neighbor_stays() {
    let pinned = EthernetAddress(PEER_LINK);
    let other = [2, 0, 0, 0, 0, 66];
    let mut device = MemoryDevice::new(Medium::Ethernet, 1514);
    let config = Config::new(HardwareAddress::Ethernet(EthernetAddress(OWN)));
    let usual = config.guard.unwrap();
    assert_eq!((usual.longest_error, usual.defend), (Some(3), None));
    let mut iface = Interface::new(config, &mut device, Instant::ZERO);
    iface.update_ip_addrs(|list| list.push(IpCidr::new(SELF.into(), 24)).unwrap());
    let mut sockets = SocketSet::of(&iface);
    assert_eq!(iface.guard_unpin(PEER), Err(Error::NotThere));
    assert_eq!(iface.guard_pin(PEER, EthernetAddress([3, 0, 0, 0, 0, 2])), Err(Error::NotUnicast));
    iface.guard_pin(PEER, pinned).unwrap();
    assert_eq!(iface.guard_pinned_conflict(), None);
    let now = Instant::from_secs(5);
    device.incoming.push_back(arp(2, other, PEER, OWN, SELF));
    iface.poll(now, &mut device, &mut sockets);
    assert_eq!((iface.neighbors().len(), iface.guard_drops().pinned), (0, 1));
    let conflict = Conflict { hardware_addr: EthernetAddress(other), at: now };
    assert_eq!(iface.guard_pinned_conflict(), Some(conflict));
    device.incoming.push_back(arp(2, pinned.0, PEER, OWN, SELF));
    iface.poll(now, &mut device, &mut sockets);
    assert_eq!(iface.neighbors().len(), 1);
    iface.guard_unpin(PEER).unwrap();
    device.incoming.push_back(arp(2, other, PEER, OWN, SELF));
    iface.poll(now, &mut device, &mut sockets);
    assert_eq!(iface.guard_drops().pinned, 1);
}

#[test]
fn an_interface_is_refused_with_its_reason() {
    let made = |hardware: HardwareAddress, medium, mtu| {
        Interface::try_new(Config::new(hardware), &mut MemoryDevice::new(medium, mtu), Instant::ZERO).map(|_| ())
    };
    let own = HardwareAddress::Ethernet(EthernetAddress(OWN));
    assert_eq!(made(own, Medium::Ethernet, 1514), Ok(()));
    assert_eq!(made(HardwareAddress::Ip, Medium::Ip, 1500), Ok(()));
    assert_eq!(made(own, Medium::Ethernet, 589), Err(Error::BadMtu));
    assert_eq!(made(own, Medium::Ethernet, 9000), Ok(()));
    assert_eq!(made(own, Medium::Ethernet, usize::MAX), Ok(()));
    assert_eq!(made(HardwareAddress::Ip, Medium::Ip, 65535), Ok(()));
    assert_eq!(made(EthernetAddress([1; 6]).into(), Medium::Ethernet, 1514), Err(Error::NotUnicast));
    assert_eq!(made(own, Medium::Ip, 1500), Err(Error::BadArgument));
}

/// RFC 894: a packet of 1500 octets fills a frame, whatever longer ones the device takes.
#[test]
fn no_frame_is_longer_than_ethernet_has_them() {
    for (payload, frames) in [(1472, vec![1514]), (1473, vec![1514, 35])] {
        let mut device = MemoryDevice::new(Medium::Ethernet, 9000);
        let mut iface = Interface::new(Config::new(EthernetAddress(OWN).into()), &mut device, Instant::ZERO);
        iface.update_ip_addrs(|list| list.push(IpCidr::new(SELF.into(), 24)).unwrap());
        let mut sockets = SocketSet::of(&iface);
        let mut socket = udp::Socket::new(buffer(), udp::PacketBuffer::with_capacity(1, 4096));
        socket.bind(7).unwrap();
        let handle = sockets.add(socket);
        device.incoming.push_back(arp(1, PEER_LINK, PEER, [0; 6], SELF));
        iface.poll(Instant::ZERO, &mut device, &mut sockets);
        device.sent.clear();
        let data = vec![7; payload];
        sockets.get_mut::<udp::Socket>(handle).send_slice(&data, (IpAddress::Ipv4(PEER), 9)).unwrap();
        for micros in 0..3 {
            iface.poll(Instant::from_micros(micros), &mut device, &mut sockets);
        }
        assert_eq!(device.sent.iter().map(Vec::len).collect::<Vec<_>>(), frames);
    }
}

#[test]
fn addresses_are_read_back_and_a_refused_list_changes_nothing() {
    let (_, mut iface, _) = interface();
    let all: Vec<IpCidr> =
        ["192.168.69.1/24", "fe80::1/64", "10.0.0.1/8", "0.0.0.0/0"].iter().map(|text| text.parse().unwrap()).collect();
    iface.update_ip_addrs(|list| all[1..].iter().for_each(|cidr| list.push(*cidr).unwrap()));
    assert_eq!(*iface.ip_addrs(), all[..]);
    let link_local = Ipv6Address::new(0xfe80, 0, 0, 0, 0, 0, 0, 1);
    assert_eq!((iface.ipv4_addr(), iface.ipv6_addr()), (Some(SELF), Some(link_local)));
    iface.update_ip_addrs(|list| {
        list.retain(|cidr| *cidr != all[1]);
    });
    assert_eq!(*iface.ip_addrs(), [all[0], all[2], all[3]]);
    let refused = iface.try_update_ip_addrs(|list| {
        list.clear();
        list.push(all[1]).unwrap();
        list.push("224.0.0.1/4".parse().unwrap()).unwrap();
    });
    assert_eq!(refused, Err(Error::NotUnicast));
    assert_eq!(*iface.ip_addrs(), [all[0], all[2], all[3]]);
    assert!(iface.has_ip_addr(SELF) && !iface.has_ip_addr(PEER));
    iface.update_ip_addrs(|list| {
        assert_eq!((list.remove(0), list.pop()), (all[0], Some(all[3])));
        list[0] = all[1];
    });
    assert_eq!(*iface.ip_addrs(), [all[1]]);
}

#[test]
fn an_address_twice_is_kept_in_its_order() {
    let (_, mut iface, _) = interface();
    let (a, b) = (IpCidr::new(SELF.into(), 24), IpCidr::new(PEER.into(), 24));
    for list in [vec![a, b, a], vec![a, b], vec![a, b, a], vec![a, a, b], vec![b, a, a], vec![a], vec![]] {
        iface.update_ip_addrs(|old| {
            old.clear();
            list.iter().for_each(|cidr| old.push(*cidr).unwrap());
        });
        assert_eq!(*iface.ip_addrs(), list[..]);
    }
}

#[test]
fn a_datagram_comes_and_goes() {
    let (mut device, mut iface, mut sockets) = interface();
    let handle = sockets.add(udp::Socket::new(buffer(), buffer()));
    assert_eq!(iface.poll(millis(1), &mut device, &mut sockets), PollResult::None);
    let socket = sockets.get_mut::<udp::Socket>(handle);
    assert_eq!(socket.send_slice(b"x", (PEER, 9)), Err(udp::SendError::Unaddressable));
    assert_eq!(socket.bind(0), Err(udp::BindError::Unaddressable));
    socket.bind(7).unwrap();
    assert_eq!(socket.bind(8), Err(udp::BindError::InvalidState));
    assert_eq!(socket.endpoint(), 7.into());
    assert_eq!(socket.recv(), Err(udp::RecvError::Exhausted));
    device.incoming.push_back(arp(2, PEER_LINK, PEER, OWN, SELF));
    for text in [b"one".as_slice(), b"two", b"three: no room"] {
        device.incoming.push_back(datagram(text));
    }
    assert_eq!(iface.poll(millis(1), &mut device, &mut sockets), PollResult::SocketStateChanged);
    let socket = sockets.get_mut::<udp::Socket>(handle);
    let from = (PEER, 9).into();
    assert!(socket.can_recv());
    assert_eq!(socket.peek(), Ok((b"one".as_slice(), &from)));
    assert_eq!(socket.peek_slice(&mut [0; 2]), Err(udp::RecvError::Truncated));
    let mut room = [0; 3];
    assert_eq!((socket.recv_slice(&mut room), &room), (Ok((3, from)), b"one"));
    assert_eq!(socket.recv(), Ok((b"two".as_slice(), from)));
    assert!(!socket.can_recv());
    assert_eq!(socket.recv(), Err(udp::RecvError::Exhausted));
    // Two datagrams have room, a third one hasn't.
    for (text, done) in [(b"a", Ok(())), (b"b", Ok(())), (b"c", Err(udp::SendError::BufferFull))] {
        assert_eq!(socket.send_slice(text, from), done);
    }
    assert_eq!(socket.send_with(4, from, |_| 4), Err(udp::SendError::BufferFull));
    assert_eq!(iface.poll_delay(millis(1), &sockets), Some(Duration::ZERO));
    iface.poll(millis(1), &mut device, &mut sockets);
    let texts: Vec<Vec<u8>> = device.sent.iter().map(|frame| frame[42..].to_vec()).collect();
    assert_eq!(texts, [b"a".to_vec(), b"b".to_vec()]);
    assert_eq!(device.sent[0][..14], [2, 0, 0, 0, 0, 2, 2, 0, 0, 0, 0, 1, 8, 0]);
    assert_eq!(iface.poll_at(millis(1), &sockets), None);
    let socket = sockets.get_mut::<udp::Socket>(handle);
    assert_eq!(socket.send_with(4, from, |room| room.iter_mut().map(|octet| *octet = b'd').count()), Ok(4));
    assert_eq!(socket.send_with(257, from, |_| panic!("no room")), Err(udp::SendError::BufferFull));
    iface.poll(millis(1), &mut device, &mut sockets);
    assert_eq!(device.sent[2][42..], *b"dddd");
}

/// smoltcp's `recv_slice` drops a packet that is longer than the buffer; its `can_recv` is about packets, an empty one
/// too.
#[test]
fn a_truncated_datagram_is_dropped_and_an_empty_one_is_received() {
    let (mut device, mut iface, mut sockets) = interface();
    let handle = sockets.add(udp::Socket::new(buffer(), buffer()));
    sockets.get_mut::<udp::Socket>(handle).bind(7).unwrap();
    device.incoming.extend([datagram(b"long"), datagram(b"")]);
    iface.poll(millis(1), &mut device, &mut sockets);
    let socket = sockets.get_mut::<udp::Socket>(handle);
    let from = (PEER, 9).into();
    assert_eq!(socket.recv_slice(&mut [0; 3]), Err(udp::RecvError::Truncated));
    assert!(socket.can_recv());
    assert!(socket.can_recv());
    assert_eq!(socket.peek(), Ok((b"".as_slice(), &from)));
    assert_eq!(socket.recv_slice(&mut []), Ok((0, from)));
    assert!(!socket.can_recv());
}

/// `API.md`: a socket may be bound before it comes into a set, stays bound when it is taken out, and isn't given up
/// when it is refused.
#[test]
fn sockets_go_in_and_out() {
    let (mut device, mut iface, mut sockets) = interface();
    let mut socket = udp::Socket::new(buffer(), buffer());
    socket.bind(7).unwrap();
    assert!(socket.is_open() && socket.can_send() && !socket.can_recv());
    let handle = sockets.add(socket);
    device.incoming.push_back(datagram(b"one"));
    iface.poll(millis(1), &mut device, &mut sockets);
    assert!(sockets.get::<udp::Socket>(handle).can_recv());
    let Socket::Udp(socket) = sockets.remove(handle) else { panic!("another kind") };
    assert!(socket.is_open() && !socket.can_recv());
    let handle = sockets.add(socket);
    assert!(!sockets.get::<udp::Socket>(handle).can_recv());
    device.incoming.push_back(datagram(b"two"));
    iface.poll(millis(1), &mut device, &mut sockets);
    assert_eq!(sockets.get_mut::<udp::Socket>(handle).recv().unwrap().0, b"two");
    sockets.get_mut::<udp::Socket>(handle).close();
    assert!(!sockets.get::<udp::Socket>(handle).is_open());
}

#[test]
fn sockets_are_closed_with_their_places() {
    let (mut device, mut iface, mut sockets) = interface();
    let raw = || raw::Socket::new(IpVersion::Ipv4, IpProtocol::Unknown(253), buffer(), buffer());
    let first = sockets.add(udp::Socket::new(buffer(), buffer()));
    let second = sockets.add(icmp::Socket::new(buffer(), buffer()));
    let third = sockets.add(raw());
    sockets.get_mut::<udp::Socket>(first).bind(7).unwrap();
    // `Config::sockets` is 2.
    let full = sockets.get_mut::<icmp::Socket>(second).bind(icmp::Endpoint::Ident(1));
    assert_eq!(full, Err(icmp::BindError::Exhausted));
    let refused = sockets.try_add(raw()).unwrap_err();
    assert_eq!(refused.error, Error::TableFull);
    sockets.remove(third);
    // `API.md`: there is no raw socket for any version or protocol.
    for (version, protocol) in [(None, Some(IpProtocol::Igmp)), (Some(IpVersion::Ipv4), None), (None, None)] {
        let socket = raw::Socket::new(version, protocol, buffer(), buffer());
        assert_eq!((socket.ip_version(), socket.ip_protocol()), (version, protocol));
        assert_eq!(sockets.try_add(socket).unwrap_err().error, Error::BadArgument);
    }
    sockets.get_mut::<icmp::Socket>(second).bind(icmp::Endpoint::Ident(1)).unwrap();
    // A socket that is overwritten is closed, too.
    *sockets.get_mut::<udp::Socket>(first) = udp::Socket::new(buffer(), buffer());
    let fourth = sockets.add(refused.socket);
    assert_eq!(fourth, third);
    let packet = ipv4(PEER, SELF, 253, 0, 0, b"packet");
    device.incoming.push_back(ethernet(OWN, PEER_LINK, 0x0800, &packet));
    iface.poll(millis(1), &mut device, &mut sockets);
    let socket = sockets.get_mut::<raw::Socket>(fourth);
    assert_eq!(&socket.peek().unwrap()[20..], b"packet");
    assert_eq!(&socket.recv().unwrap()[20..], b"packet");
    assert_eq!(sockets.iter().count(), 3);
    // Sockets outlive their interface, and their set.
    drop(iface);
    assert!(!sockets.get::<raw::Socket>(fourth).can_recv());
    let kept = sockets.remove(fourth);
    drop(sockets);
    drop(kept);
}

#[test]
#[should_panic(expected = "the table is full")]
fn a_full_set_panics_as_smoltcps() {
    let (_, _, mut sockets) = interface();
    for port in 1..4 {
        let mut socket = udp::Socket::new(buffer(), buffer());
        socket.bind(port).unwrap();
        sockets.add(socket);
    }
}

#[test]
#[should_panic(expected = "wrong type")]
fn a_handle_names_its_kind() {
    let (_, _, mut sockets) = interface();
    let handle = sockets.add(udp::Socket::new(buffer(), buffer()));
    sockets.get::<raw::Socket>(handle);
}

#[test]
#[should_panic(expected = "another interface")]
fn sockets_belong_to_their_interface() {
    let (mut device, mut iface, _) = interface();
    let (_, _, mut others) = interface();
    iface.poll(Instant::ZERO, &mut device, &mut others);
}

/// RFC 792: an echo reply for the socket's identifier comes to it, another one doesn't.
#[test]
fn icmp_sockets_get_their_replies() {
    let (mut device, mut iface, mut sockets) = interface();
    let handle = sockets.add(icmp::Socket::new(buffer(), buffer()));
    let socket = sockets.get_mut::<icmp::Socket>(handle);
    let one_address = IpListenEndpoint { addr: Some(SELF.into()), port: 7 };
    assert_eq!(socket.bind(icmp::Endpoint::Unspecified), Err(icmp::BindError::Unaddressable));
    assert_eq!(socket.bind(icmp::Endpoint::Udp(one_address)), Err(icmp::BindError::Unaddressable));
    assert_eq!(socket.bind(icmp::Endpoint::Udp(0.into())), Err(icmp::BindError::Unaddressable));
    socket.bind(icmp::Endpoint::Ident(0x22b)).unwrap();
    socket.send_slice(&[8, 0, 0, 0, 2, 0x2b, 0, 1, b'x'], PEER.into()).unwrap();
    device.incoming.push_back(arp(2, PEER_LINK, PEER, OWN, SELF));
    iface.poll(millis(1), &mut device, &mut sockets);
    // The request, with its checksum.
    let request = [8, 0, 0x7d, 0xd3, 2, 0x2b, 0, 1, b'x'];
    assert_eq!(common::sum(&request), 0);
    assert_eq!(device.sent.pop_front().unwrap()[34..], request);
    for ident in [0x2c, 0x2b] {
        let mut reply = vec![0, 0, 0, 0, 2, ident, 0, 1, b'x'];
        let check = common::sum(&reply).to_be_bytes();
        reply[2..4].copy_from_slice(&check);
        device.incoming.push_back(ethernet(OWN, PEER_LINK, 0x0800, &ipv4(PEER, SELF, 1, 0, 0, &reply)));
    }
    iface.poll(millis(1), &mut device, &mut sockets);
    let (message, from) = sockets.get_mut::<icmp::Socket>(handle).recv().unwrap();
    assert_eq!((message[0], message[5], from), (0, 0x2b, PEER.into()));
    assert!(!sockets.get::<icmp::Socket>(handle).can_recv());
}

/// RFC 792, RFC 1122 3.2.2.1: a port unreachable that quotes a datagram from this port comes to the socket.
#[test]
fn icmp_sockets_get_port_unreachables() {
    let (mut device, mut iface, mut sockets) = interface();
    let handle = sockets.add(icmp::Socket::new(buffer(), buffer()));
    sockets.get_mut::<icmp::Socket>(handle).bind(icmp::Endpoint::Udp(7.into())).unwrap();
    let quoted = udp4(SELF, PEER, (7, 9), b"x");
    let mut message = [&[3, 3, 0, 0, 0, 0, 0, 0], &quoted[..]].concat();
    let check = common::sum(&message).to_be_bytes();
    message[2..4].copy_from_slice(&check);
    device.incoming.push_back(ethernet(OWN, PEER_LINK, 0x0800, &ipv4(PEER, SELF, 1, 0, 0, &message)));
    iface.poll(millis(1), &mut device, &mut sockets);
    let (received, from) = sockets.get_mut::<icmp::Socket>(handle).recv().unwrap();
    assert_eq!((received[..2].to_vec(), from), (vec![3, 3], PEER.into()));
}

/// `docs/C.md`: the usual room is for 16 groups and eight routes.
#[test]
fn groups_and_routes_have_their_errors() {
    let (mut device, mut iface, mut sockets) = interface();
    assert_eq!(iface.join_multicast_group(SELF), Err(MulticastError::Unaddressable));
    for n in 0..16 {
        iface.join_multicast_group(Ipv4Address::new(239, 0, 0, n)).unwrap();
    }
    let another = Ipv4Address::new(239, 0, 0, 16);
    assert_eq!(iface.join_multicast_group(another), Err(MulticastError::GroupTableFull));
    iface.poll(Instant::ZERO, &mut device, &mut sockets);
    assert_eq!(device.sent.len(), 16);
    iface.leave_multicast_group(Ipv4Address::new(239, 0, 0, 1)).unwrap();
    let routes = iface.routes_mut();
    for n in 1..8 {
        routes.add(IpCidr::new(IpAddress::v4(10, n, 0, 0), 16), PEER.into()).unwrap();
    }
    let (first, second) = (Route::new_ipv4_gateway(PEER), Route::new_ipv4_gateway(Ipv4Address::new(192, 168, 69, 3)));
    assert_eq!(routes.add_default_ipv4_route(PEER), Ok(None));
    assert_eq!(routes.add_default_ipv4_route(Ipv4Address::new(192, 168, 69, 3)), Ok(Some(first)));
    assert_eq!(routes.add_default_ipv6_route(Ipv6Address::LOCALHOST), Err(RouteTableFull));
    assert_eq!((routes.get_default_ipv4_route(), routes.get_default_ipv6_route()), (Some(second), None));
    assert_eq!((routes.remove_default_ipv4_route(), routes.remove_default_ipv4_route()), (Some(second), None));
    assert_eq!(routes.remove_default_ipv6_route(), None);
    assert_eq!(routes.add_default_ipv6_route(Ipv6Address::LOCALHOST), Ok(None));
    let third = Route::new_ipv6_gateway(Ipv6Address::LOCALHOST);
    assert_eq!(routes.add_default_ipv6_route(Ipv6Address::LOCALHOST), Ok(Some(third)));
    assert_eq!((routes.remove_default_ipv4_route(), routes.remove_default_ipv6_route()), (None, Some(third)));
    assert_eq!(routes.remove_default_ipv6_route(), None);
    assert!(routes.remove("10.2.0.0/16".parse().unwrap()) && !routes.remove("10.2.0.0/16".parse().unwrap()));
}

/// smoltcp: `route`, `test_fill`, its two routes, of which the second has an end; and its documentation of `Routes`.
/// `API.md`: `preferred_until` isn't kept.
#[test]
fn routes_are_changed_as_a_list_and_read_back() {
    let (_, mut iface, _) = interface();
    let route = |cidr: &str, last, expires_at| Route {
        cidr: cidr.parse().unwrap(),
        via_router: IpAddress::v4(192, 168, 69, last),
        preferred_until: None,
        expires_at,
    };
    let (one, two) = (route("192.0.2.0/24", 1, None), route("198.51.100.0/24", 2, Some(millis(10))));
    let default = Route::new_ipv4_gateway(PEER);
    assert_eq!((iface.routes().len(), iface.routes().get_default_ipv4_route()), (0, None));
    iface.routes_mut().update(|routes| {
        routes.push(one).unwrap();
        routes.push(Route { preferred_until: Some(millis(10)), ..two }).unwrap();
    });
    assert_eq!(*iface.routes(), [one, two]);
    assert_eq!(iface.routes_mut().add_default_ipv4_route(PEER), Ok(None));
    assert_eq!(*iface.routes(), [one, two, default]);
    assert_eq!(
        (iface.routes().get_default_ipv4_route(), iface.routes().get_default_ipv6_route()),
        (Some(default), None)
    );
    // The same network twice, and in another order.
    for list in [vec![one, default, one, two], vec![two, one], vec![one, two], vec![one, one, two], vec![], vec![two]] {
        iface.routes_mut().update(|routes| {
            routes.clear();
            list.iter().for_each(|route| routes.push(*route).unwrap());
        });
        assert_eq!(*iface.routes(), list[..]);
    }
    iface.routes_mut().update(|routes| {
        for _ in 0..7 {
            routes.push(one).unwrap();
        }
        assert_eq!(routes.push(one), Err(one));
        assert_eq!(routes.remove(0), two);
        routes[1].via_router = PEER.into();
        routes.retain(|route| *route == one);
    });
    assert_eq!(*iface.routes(), [one; 6]);
}

/// smoltcp's documentation of `PollResult` and `PollIngressSingleResult`, and its code: an empty frame is processed and
/// changes no socket, nor does a request for a neighbour, or a group's report, that is sent. A packet that is given up
/// does.
#[test]
fn a_poll_tells_whether_sockets_may_have_changed() {
    let (mut device, mut iface, mut sockets) = interface();
    let handle = sockets.add(udp::Socket::new(buffer(), buffer()));
    sockets.get_mut::<udp::Socket>(handle).bind(7).unwrap();
    let single =
        |iface: &mut Interface, device: &mut MemoryDevice, sockets: &mut SocketSet<'_>, frame: Option<Vec<u8>>| {
            device.incoming.extend(frame);
            iface.poll_ingress_single(millis(0), device, sockets)
        };
    assert_eq!(single(&mut iface, &mut device, &mut sockets, None), PollIngressSingleResult::None);
    let empty = single(&mut iface, &mut device, &mut sockets, Some(vec![]));
    assert_eq!(empty, PollIngressSingleResult::PacketProcessed);
    let full = single(&mut iface, &mut device, &mut sockets, Some(datagram(b"x")));
    assert_eq!(full, PollIngressSingleResult::SocketStateChanged);
    let empty = single(&mut iface, &mut device, &mut sockets, Some(vec![]));
    assert_eq!(empty, PollIngressSingleResult::PacketProcessed);

    device.incoming.push_back(vec![]);
    iface.join_multicast_group(Ipv4Address::new(239, 1, 2, 3)).unwrap();
    assert_eq!(iface.poll(millis(0), &mut device, &mut sockets), PollResult::None);
    assert_eq!((device.incoming.len(), device.sent.len()), (0, 1));
    sockets.get_mut::<udp::Socket>(handle).send_slice(b"x", (PEER, 9)).unwrap();
    assert_eq!(iface.poll(millis(0), &mut device, &mut sockets), PollResult::None);
    assert_eq!(device.sent.len(), 2);
    device.incoming.push_back(arp(2, PEER_LINK, PEER, OWN, SELF));
    assert_eq!(iface.poll(millis(0), &mut device, &mut sockets), PollResult::SocketStateChanged);
    assert_eq!(iface.poll(millis(0), &mut device, &mut sockets), PollResult::None);
    sockets.get_mut::<udp::Socket>(handle).send_slice(b"x", (PEER, 9)).unwrap();
    assert_eq!(iface.poll_egress(millis(0), &mut device, &mut sockets), PollResult::SocketStateChanged);
    assert_eq!(iface.poll_egress(millis(0), &mut device, &mut sockets), PollResult::None);

    let absent = Ipv4Address::new(192, 168, 69, 9);
    sockets.get_mut::<udp::Socket>(handle).send_slice(b"anybody?", (absent, 9)).unwrap();
    let polled: Vec<PollResult> =
        (0..=4).map(|second| iface.poll(Instant::from_secs(second), &mut device, &mut sockets)).collect();
    assert_eq!(iface.given_up_count(), 1);
    assert_eq!(polled.iter().filter(|result| **result == PollResult::SocketStateChanged).count(), 1);

    // By frames that are slices.
    assert!(!iface.sockets_changed());
    iface.receive_frame(millis(0), &datagram(b"y"), &mut sockets);
    assert!(iface.sockets_changed() && !iface.sockets_changed());
}

/// smoltcp's documentation of `get_source_address`, by RFC 6724, 10.1.
#[test]
fn the_source_for_a_destination_is_told() {
    let (_, mut iface, _) = interface();
    let doc = |net, last| Ipv6Address::new(0x2001, 0xdb8, net, 0, 0, 0, 0, last);
    assert_eq!(iface.get_source_address_ipv6(&doc(1, 1)), Ipv6Address::LOCALHOST);
    iface.update_ip_addrs(|list| {
        for text in ["10.0.0.1/8", "2001:db8:1::2/64", "2001:db8:3::2/64"] {
            list.push(text.parse().unwrap()).unwrap();
        }
    });
    let (near, far) = (Ipv4Address::new(10, 1, 2, 3), Ipv4Address::new(8, 8, 8, 8));
    assert_eq!(iface.get_source_address_ipv4(&near), Some(Ipv4Address::new(10, 0, 0, 1)));
    assert_eq!(iface.get_source_address_ipv4(&far), Some(SELF));
    assert_eq!(iface.get_source_address_ipv6(&doc(1, 1)), doc(1, 2));
    assert_eq!(iface.get_source_address(&far.into()), Some(SELF.into()));
    assert_eq!(iface.get_source_address(&doc(1, 1).into()), Some(doc(1, 2).into()));
    iface.update_ip_addrs(|list| list.clear());
    assert_eq!((iface.get_source_address(&far.into()), iface.get_source_address_ipv4(&near)), (None, None));
}

/// smoltcp: `neighbor`, `test_fill` and `test_flush`: an entry lasts a minute, behind a guard for twenty seconds at first, and
/// new addresses flush, though they are the old ones. `docs/C.md`, Counters, A guard.
#[test]
fn neighbors_and_counters_are_read() {
    let (mut device, mut iface, mut sockets) = interface();
    device.incoming.push_back(arp(1, PEER_LINK, PEER, [0; 6], SELF));
    iface.poll(millis(5), &mut device, &mut sockets);
    let known = iface.neighbors();
    assert_eq!((known.len(), known[0].protocol_addr, known[0].hardware_addr.0), (1, PEER.into(), PEER_LINK));
    assert_eq!(known[0].expires_at, millis(20_005));
    let counters = iface.counters();
    assert_eq!((counters.frames_in, counters.frames_out, counters.given_up, counters.no_memory), (1, 1, 0, 0));
    assert_eq!(iface.try_update_ip_addrs(|_| ()), Ok(()));
    assert!(iface.neighbors().is_empty());
}

/// smoltcp's documentation of `hop_limit` and `set_hop_limit`: `None` is 64 (IANA). It is that of the header: RFC 791,
/// 3.1.
#[test]
fn sockets_send_with_their_hop_limit() {
    let (mut device, mut iface, mut sockets) = interface();
    device.incoming.push_back(arp(2, PEER_LINK, PEER, OWN, SELF));
    let mut socket = udp::Socket::new(buffer(), buffer());
    assert_eq!(socket.hop_limit(), None);
    socket.set_hop_limit(Some(1));
    socket.bind(7).unwrap();
    let handle = sockets.add(socket);
    let echo = sockets.add(icmp::Socket::new(buffer(), buffer()));
    sockets.get_mut::<icmp::Socket>(echo).bind(icmp::Endpoint::Ident(1)).unwrap();
    let mut sent_with = |sockets: &mut SocketSet<'_>| {
        sockets.get_mut::<udp::Socket>(handle).send_slice(b"x", (PEER, 9)).unwrap();
        sockets.get_mut::<icmp::Socket>(echo).send_slice(&[8, 0, 0, 0, 0, 1, 0, 1], PEER.into()).unwrap();
        iface.poll(millis(0), &mut device, sockets);
        device.sent.drain(..).map(|frame| frame[22]).collect::<Vec<u8>>()
    };
    assert_eq!(sent_with(&mut sockets), [1, 64]);
    sockets.get_mut::<udp::Socket>(handle).set_hop_limit(Some(255));
    sockets.get_mut::<icmp::Socket>(echo).set_hop_limit(Some(2));
    assert_eq!(sent_with(&mut sockets), [255, 2]);
    let socket = sockets.get_mut::<udp::Socket>(handle);
    socket.close();
    socket.bind(8).unwrap();
    assert_eq!(socket.hop_limit(), Some(255));
    assert_eq!(sent_with(&mut sockets), [255, 2]);
    sockets.get_mut::<udp::Socket>(handle).set_hop_limit(None);
    sockets.get_mut::<icmp::Socket>(echo).set_hop_limit(None);
    assert_eq!(sent_with(&mut sockets), [64, 64]);
}

#[test]
#[should_panic(expected = "the time-to-live value of a packet must not be zero")]
fn a_hop_limit_of_zero_panics_as_smoltcps() {
    udp::Socket::new(buffer(), buffer()).set_hop_limit(Some(0));
}

/// smoltcp's documentation of `can_send`, `can_recv`, `send_queue` and `recv_queue`: whether there is room for a
/// packet, whether one came, and the octets that wait.
#[test]
fn sockets_tell_what_waits_in_their_queues() {
    let (mut device, mut iface, mut sockets) = interface();
    let told = |sockets: &SocketSet<'_>, handle| {
        let socket = sockets.get::<udp::Socket>(handle);
        (socket.can_recv(), socket.recv_queue(), socket.can_send(), socket.send_queue())
    };
    let handle = sockets.add(udp::Socket::new(buffer(), buffer()));
    assert_eq!(told(&sockets, handle), (false, 0, false, 0));
    sockets.get_mut::<udp::Socket>(handle).bind(7).unwrap();
    assert_eq!(told(&sockets, handle), (false, 0, true, 0));
    device.incoming.extend([datagram(b"three"), datagram(b"")]);
    iface.poll(millis(0), &mut device, &mut sockets);
    assert_eq!(told(&sockets, handle), (true, 5, true, 0));
    // One that was looked at is counted.
    assert_eq!(sockets.get_mut::<udp::Socket>(handle).peek().unwrap().0, b"three");
    assert_eq!(told(&sockets, handle), (true, 5, true, 0));
    let socket = sockets.get_mut::<udp::Socket>(handle);
    assert_eq!(socket.recv().unwrap().0, b"three");
    assert_eq!((socket.can_recv(), socket.recv_queue()), (true, 0));
    assert_eq!(socket.peek().unwrap().0, b"");
    assert!(socket.can_recv());
    assert_eq!(socket.recv().unwrap().0, b"");
    for text in [b"four".as_slice(), b""] {
        assert!(socket.can_send());
        socket.send_slice(text, (PEER, 9)).unwrap();
    }
    assert_eq!(told(&sockets, handle), (false, 0, false, 4));
    let socket = sockets.get_mut::<udp::Socket>(handle);
    assert_eq!(socket.send_slice(b"", (PEER, 9)), Err(udp::SendError::BufferFull));
    assert_eq!(socket.send_with(0, (PEER, 9), |_| panic!("no room")), Err(udp::SendError::BufferFull));
    device.incoming.push_back(arp(2, PEER_LINK, PEER, OWN, SELF));
    iface.poll(millis(0), &mut device, &mut sockets);
    assert_eq!(told(&sockets, handle), (false, 0, true, 0));
}

/// `API.md`: 0.0.0.0 and :: are any address; a group's, and 255.255.255.255, are refused, in a set or not.
#[test]
fn a_socket_is_bound_to_no_group() {
    let (mut device, mut iface, mut sockets) = interface();
    let at = |text: &str, port| IpListenEndpoint { addr: text.parse().ok(), port };
    let handle = sockets.add(udp::Socket::new(buffer(), buffer()));
    for refused in ["224.0.0.1", "255.255.255.255", "ff02::1"] {
        let bound = sockets.get_mut::<udp::Socket>(handle).bind(at(refused, 7));
        assert_eq!(bound, Err(udp::BindError::Unaddressable));
        assert_eq!(udp::Socket::new(buffer(), buffer()).bind(at(refused, 7)), Err(udp::BindError::Unaddressable));
    }
    sockets.get_mut::<udp::Socket>(handle).bind(at("::", 7)).unwrap();
    device.incoming.push_back(datagram(b"x"));
    iface.poll(millis(0), &mut device, &mut sockets);
    assert!(sockets.get::<udp::Socket>(handle).can_recv());
}

/// RFC 4861, 6.3.7: a host solicits when it begins.
#[test]
fn an_interface_begins_at_the_instant_that_is_given() {
    let now = Instant::from_secs(1000);
    let mut device = MemoryDevice::new(Medium::Ethernet, 1514);
    let mut config = Config::new(EthernetAddress(OWN).into());
    config.slaac = true;
    let mut iface = Interface::new(config, &mut device, now);
    iface.update_ip_addrs(|list| list.push("fe80::1/64".parse().unwrap()).unwrap());
    let mut sockets = SocketSet::of(&iface);
    assert_eq!(iface.poll_delay(now, &sockets), Some(Duration::ZERO));
    assert_eq!(iface.poll(now, &mut device, &mut sockets), PollResult::None);
    assert!(device.sent.iter().any(|frame| common::seen(frame) == common::Seen::SolicitsRouters));
}

/// smoltcp's documentation of these calls, and `API.md`: what panics there is an error here.
#[test]
fn what_is_set_later_is_read_back() {
    let (mut device, mut iface, mut sockets) = interface();
    let (own, peer) = (HardwareAddress::Ethernet(EthernetAddress(OWN)), EthernetAddress(PEER_LINK).into());
    assert_eq!(iface.try_set_hardware_addr(EthernetAddress::BROADCAST.into()), Err(Error::NotUnicast));
    assert_eq!(iface.try_set_hardware_addr(HardwareAddress::Ip), Err(Error::BadArgument));
    assert_eq!(iface.hardware_addr(), own);
    assert_eq!(iface.try_set_hardware_addr(peer), Ok(()));
    assert_eq!(iface.hardware_addr(), peer);
    assert_eq!(iface.reassembly_timeout(), Duration::from_secs(10));
    assert_eq!(iface.set_reassembly_timeout(Duration::from_secs(60)), Ok(()));
    assert_eq!(iface.set_reassembly_timeout(Duration::ZERO), Err(Error::BadTimeout));
    assert_eq!(iface.reassembly_timeout(), Duration::from_secs(60));
    assert!(!iface.any_ip());
    iface.set_any_ip(true);
    assert!(iface.any_ip() && iface.has_ip_addr(SELF) && !iface.has_ip_addr(PEER));
    let group = Ipv4Address::new(239, 0, 0, 1);
    assert!(!iface.has_multicast_group(group) && iface.has_multicast_group(Ipv4Address::new(224, 0, 0, 1)));
    iface.join_multicast_group(group).unwrap();
    assert!(iface.has_multicast_group(group));
    iface.poll(millis(5), &mut device, &mut sockets);
    assert_eq!(iface.slaac_updated_at(), Instant::ZERO);

    let mut device = Loopback::new(Medium::Ip);
    let mut iface = Interface::new(Config::new(HardwareAddress::Ip), &mut device, Instant::ZERO);
    assert_eq!(
        (iface.hardware_addr(), iface.try_set_hardware_addr(own)),
        (HardwareAddress::Ip, Err(Error::BadArgument))
    );
}

/// `docs/C.md`, A neighbour that doesn't answer.
#[test]
fn a_socket_tells_of_an_absent_neighbor() {
    let (mut device, mut iface, mut sockets) = interface();
    let handle = sockets.add(udp::Socket::new(buffer(), buffer()));
    let socket = sockets.get_mut::<udp::Socket>(handle);
    socket.bind(7).unwrap();
    socket.send_slice(b"anybody?", (PEER, 9)).unwrap();
    iface.poll(millis(0), &mut device, &mut sockets);
    assert_eq!(sockets.get::<udp::Socket>(handle).waiting(), Some((PEER.into(), millis(0))));
    for second in 1..=4 {
        iface.poll(Instant::from_secs(second), &mut device, &mut sockets);
    }
    let socket = sockets.get_mut::<udp::Socket>(handle);
    assert_eq!(socket.waiting(), None);
    assert_eq!((socket.given_up(), socket.given_up()), (Some(PEER.into()), None));
    assert_eq!(iface.given_up_count(), 1);
    assert_eq!(iface.poll_at(Instant::from_secs(4), &sockets), None);
}

/// `docs/C.md`, The configuration: the patience is the one that is set; `iface.h`: zero is for ever.
#[test]
fn the_patience_is_the_one_that_is_set() {
    for (patience, given_up) in [(Duration::from_secs(1), 1), (Duration::ZERO, 0)] {
        let mut device = MemoryDevice::new(Medium::Ethernet, 1514);
        let mut config = Config::new(EthernetAddress(OWN).into());
        config.patience = patience;
        let mut iface = Interface::new(config, &mut device, Instant::ZERO);
        iface.update_ip_addrs(|list| list.push(IpCidr::new(SELF.into(), 24)).unwrap());
        let mut sockets = SocketSet::of(&iface);
        let handle = sockets.add(udp::Socket::new(buffer(), buffer()));
        let socket = sockets.get_mut::<udp::Socket>(handle);
        socket.bind(7).unwrap();
        socket.send_slice(b"anybody?", (PEER, 9)).unwrap();
        for second in 0..=2 {
            iface.poll(Instant::from_secs(second), &mut device, &mut sockets);
        }
        assert_eq!(iface.given_up_count(), given_up);
    }
}

/// `docs/C.md`: a request is sent a second after the one before, so 400 ms after it the delay is 600 ms.
#[test]
fn the_delay_is_the_time_until_the_next_poll() {
    let (mut device, mut iface, mut sockets) = interface();
    let handle = sockets.add(udp::Socket::new(buffer(), buffer()));
    let socket = sockets.get_mut::<udp::Socket>(handle);
    socket.bind(7).unwrap();
    socket.send_slice(b"anybody?", (PEER, 9)).unwrap();
    iface.poll(millis(5000), &mut device, &mut sockets);
    assert_eq!(iface.poll_at(millis(5400), &sockets), Some(millis(6000)));
    assert_eq!(iface.poll_delay(millis(5400), &sockets), Some(Duration::from_millis(600)));
    assert_eq!(iface.poll_delay(millis(6001), &sockets), Some(Duration::ZERO));
}

/// smoltcp's documentation of the four capacities.
#[test]
fn a_socket_has_two_capacities() {
    let (small, great) = (udp::PacketBuffer::with_capacity(1, 300), udp::PacketBuffer::with_capacity(3, 200));
    let socket = udp::Socket::new(small, great);
    assert_eq!((socket.packet_recv_capacity(), socket.packet_send_capacity()), (1, 3));
    assert_eq!((socket.payload_recv_capacity(), socket.payload_send_capacity()), (300, 200));
    let (_, _, mut sockets) = interface();
    let handle = sockets.add(socket);
    let socket = sockets.get_mut::<udp::Socket>(handle);
    socket.bind(7).unwrap();
    assert_eq!((socket.packet_recv_capacity(), socket.packet_send_capacity()), (1, 3));
    assert_eq!((socket.payload_recv_capacity(), socket.payload_send_capacity()), (300, 200));
}

/// smoltcp's documentation of `peek`: nothing is taken, so the queue has no more room than before.
#[test]
fn what_is_looked_at_keeps_its_place() {
    let (mut device, mut iface, mut sockets) = interface();
    let handle = sockets.add(udp::Socket::new(udp::PacketBuffer::with_capacity(1, 300), buffer()));
    sockets.get_mut::<udp::Socket>(handle).bind(7).unwrap();
    for text in [b"one".as_slice(), b"two"] {
        device.incoming.push_back(datagram(text));
        iface.poll(millis(0), &mut device, &mut sockets);
        assert_eq!(sockets.get_mut::<udp::Socket>(handle).peek().unwrap().0, b"one");
    }
    let socket = sockets.get_mut::<udp::Socket>(handle);
    assert_eq!(socket.recv().unwrap().0, b"one");
    assert_eq!(socket.recv(), Err(udp::RecvError::Exhausted));
}

/// `socket::segment`: over a loopback, one socket gets what another sends; one that was aborted before it came into its
/// set answers by a reset.
#[test]
fn segments_go_from_socket_to_socket() {
    let mut device = Loopback::new(Medium::Ip);
    let mut iface = Interface::new(Config::new(HardwareAddress::Ip), &mut device, Instant::ZERO);
    iface.update_ip_addrs(|list| list.push(IpCidr::new(SELF.into(), 24)).unwrap());
    let mut sockets = SocketSet::of(&iface);
    let ends = [IpEndpoint::new(SELF.into(), 80), IpEndpoint::new(SELF.into(), 1024)];
    let mut socket = segment::Socket::new(buffer(), buffer());
    assert_eq!(socket.bind(0, None), Err(segment::BindError::Unaddressable));
    assert_eq!(socket.bind(80, Some(IpEndpoint::new(SELF.into(), 0))), Err(segment::BindError::Unaddressable));
    socket.bind(80, Some(ends[1])).unwrap();
    assert_eq!(socket.bind(81, None), Err(segment::BindError::InvalidState));
    assert_eq!((socket.local_endpoint(), socket.remote_endpoint()), (80.into(), Some(ends[1])));
    let server = sockets.add(socket);
    let mut socket = segment::Socket::new(buffer(), buffer());
    socket.bind(1024, None).unwrap();
    socket.hold_until(millis(5));
    socket.set_hop_limit(Some(9));
    let client = sockets.add(socket);
    let syn = segment::Segment {
        remote: ends[0],
        control: TcpControl::Syn,
        seq_number: TcpSeqNumber(7),
        ack_number: None,
        window_len: 1000,
    };
    sockets.get_mut::<segment::Socket>(client).send_slice(b"early", syn).unwrap();
    iface.poll(millis(4), &mut device, &mut sockets);
    iface.poll(millis(4), &mut device, &mut sockets);
    assert!(!sockets.get::<segment::Socket>(server).can_recv());
    iface.poll(millis(5), &mut device, &mut sockets);
    iface.poll(millis(5), &mut device, &mut sockets);
    let socket = sockets.get_mut::<segment::Socket>(server);
    let came = segment::Segment { remote: ends[1], ..syn };
    assert_eq!(socket.peek(), Ok((b"early".as_slice(), &came)));
    assert_eq!(socket.peek_slice(&mut [0; 4]), Err(segment::RecvError::Truncated));
    assert_eq!(socket.recv_slice(&mut [0; 5]), Ok((5, came)));
    socket.close();
    socket.bind(80, None).unwrap();
    socket.abort();
    sockets.get_mut::<segment::Socket>(client).send_slice(b"", syn).unwrap();
    for _ in 0..3 {
        iface.poll(millis(5), &mut device, &mut sockets);
    }
    let (payload, reset) = sockets.get_mut::<segment::Socket>(client).recv().unwrap();
    // RFC 9293, 3.10.7.1: number 0, which acknowledges the SYN.
    let wanted = segment::Segment {
        remote: ends[0],
        control: TcpControl::Rst,
        seq_number: TcpSeqNumber(0),
        ack_number: Some(TcpSeqNumber(8)),
        window_len: 0,
    };
    assert_eq!((payload, reset), (b"".as_slice(), wanted));
    assert!(!sockets.get::<segment::Socket>(server).can_recv());
}

/// Interface and sockets in threads of their own, each of which calls the host. Of two calls at a time the library
/// would refuse one (`docs/C.md`, What the calls promise).
#[test]
fn interface_and_sockets_may_be_in_different_threads() {
    let (_, mut iface, mut sockets) = interface();
    let handle = sockets.add(udp::Socket::new(buffer(), buffer()));
    sockets.get_mut::<udp::Socket>(handle).bind(7).unwrap();
    let adds = std::thread::spawn(move || {
        for n in 0..2_000 {
            let cidr = IpCidr::new(IpAddress::v4(10, 0, (n / 250) as u8, (n % 250 + 1) as u8), 8);
            iface.update_ip_addrs(|list| list.truncate_to_one_and_push(cidr));
            assert_eq!(iface.ip_addrs()[1], cidr);
        }
    });
    let socket = sockets.get_mut::<udp::Socket>(handle);
    while !adds.is_finished() {
        assert_eq!(socket.recv_slice(&mut []), Err(udp::RecvError::Exhausted));
        assert_ne!(socket.send_slice(b"x", (PEER, 9)), Err(udp::SendError::Unaddressable));
    }
    adds.join().unwrap();
}

trait TruncateToOneAndPush {
    fn truncate_to_one_and_push(&mut self, cidr: IpCidr);
}

impl TruncateToOneAndPush for fumitorygate::iface::Addresses {
    fn truncate_to_one_and_push(&mut self, cidr: IpCidr) {
        while self.len() > 1 {
            self.pop();
        }
        self.push(cidr).unwrap();
    }
}

/// `Config`: as many addresses and routes as there is room for can be set at once, and no more.
#[test]
fn lists_have_the_room_of_the_configuration() {
    for (asked, addresses, routes) in [((8, 8), 8, 8), ((0, 0), 4, 4), ((5, 1), 5, 1), ((99, 99), 16, 32)] {
        let mut device = Loopback::new(Medium::Ip);
        let mut config = Config::new(HardwareAddress::Ip);
        (config.addresses, config.routes) = asked;
        let mut iface = Interface::new(config, &mut device, Instant::ZERO);
        let cidr = |n: usize| IpCidr::new(IpAddress::v4(10, 0, n as u8, 1), 24);
        iface.update_ip_addrs(|list| {
            (0..addresses).for_each(|n| list.push(cidr(n)).unwrap());
            assert_eq!(list.push(cidr(99)), Err(cidr(99)));
        });
        assert_eq!(iface.ip_addrs().len(), addresses);
        let route = |n: usize| Route { cidr: cidr(n), ..Route::new_ipv4_gateway(PEER) };
        iface.routes_mut().update(|list| {
            (0..routes).for_each(|n| list.push(route(n)).unwrap());
            assert_eq!(list.push(route(99)), Err(route(99)));
        });
        assert_eq!(iface.routes()[..], (0..routes).map(route).collect::<Vec<_>>()[..]);
        assert_eq!(iface.routes_mut().add(cidr(99), PEER.into()), Err(RouteTableFull));
    }
}

/// On a medium without hardware addresses nobody is asked for one: a datagram comes back at once.
#[test]
fn a_medium_without_hardware_addresses_loops_back() {
    let mut device = Loopback::new(Medium::Ip);
    let mut iface = Interface::new(Config::new(HardwareAddress::Ip), &mut device, Instant::ZERO);
    iface.update_ip_addrs(|list| list.push(IpCidr::new(SELF.into(), 24)).unwrap());
    let mut sockets = SocketSet::of(&iface);
    let handle = sockets.add(udp::Socket::new(buffer(), buffer()));
    let socket = sockets.get_mut::<udp::Socket>(handle);
    socket.bind(7).unwrap();
    socket.send_slice(b"back", (SELF, 7)).unwrap();
    iface.poll(millis(0), &mut device, &mut sockets);
    iface.poll(millis(0), &mut device, &mut sockets);
    let from: IpEndpoint = (SELF, 7).into();
    assert_eq!(sockets.get_mut::<udp::Socket>(handle).recv(), Ok((b"back".as_slice(), from.into())));
}

#[test]
fn frames_of_any_octets_and_empty_slices_are_taken() {
    let (mut device, mut iface, mut sockets) = interface();
    assert_eq!(iface.receive_frame(Instant::ZERO, &[], &mut sockets), None);
    let handle = sockets.add(udp::Socket::new(udp::PacketBuffer::new([], []), udp::PacketBuffer::new([], [])));
    let socket = sockets.get_mut::<udp::Socket>(handle);
    socket.bind(7).unwrap();
    assert_eq!(socket.send_slice(&[], (PEER, 9)), Err(udp::SendError::BufferFull));
    assert_eq!(socket.recv_slice(&mut []), Err(udp::RecvError::Exhausted));
    let mut word: u64 = 0x9e37_79b9_7f4a_7c15;
    for length in 0..5_000 {
        let mut frame = ethernet(OWN, PEER_LINK, 0x0800, &[]);
        frame[12..14].copy_from_slice(&[[8, 0], [8, 6], [0x86, 0xdd]][length % 3]);
        for _ in 0..length % 97 {
            word ^= word << 13;
            word ^= word >> 7;
            word ^= word << 17;
            frame.push(word as u8);
        }
        device.incoming.push_back(frame);
        iface.poll(Instant::from_micros(length as i64), &mut device, &mut sockets);
    }
}
