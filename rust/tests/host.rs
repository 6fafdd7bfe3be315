//! The library's calls through `Host`. What is expected comes from smoltcp's own tests (named in each), from RFCs, and
//! from `docs/C.md`.
mod common;

use common::dhcp::{ACK, DISCOVER, LEASED, NAK, OFFER, REQUEST, SERVER, option, reply};
use common::{Node, OWN, Seen, advertisement, arp, ethernet, ipv4, millis, settings, tcp4, udp4, udp6};
use fumitorygate::time::{Duration, Instant};
use fumitorygate::wire::{
    EthernetAddress, HardwareAddress, IpAddress, IpCidr, IpEndpoint, IpListenEndpoint, IpProtocol, IpVersion,
    Ipv4Address, Ipv6Address, TcpControl, TcpSeqNumber,
};
use fumitorygate::{
    Checksum, ChecksumCapabilities, Dhcp, Error, FRAME_ROOM, Host, LeaseEvent, Room, Rooms, Route, Segment, Settings,
};

const SELF: Ipv4Address = Ipv4Address::new(192, 168, 69, 1);
const CIDR: IpCidr = IpCidr::new(IpAddress::v4(192, 168, 69, 1), 24);
const LINK_LOCAL: IpCidr = IpCidr::new(IpAddress::v6(0xfe80, 0, 0, 0, 0, 0, 0, 1), 64);

/// A neighbour's address and hardware address.
fn neighbor(last: u8) -> (Ipv4Address, [u8; 6]) {
    (Ipv4Address::new(192, 168, 69, last), [0, 0, 0, 0, 0, last])
}

/// Has a host learn a neighbour, by its ARP reply.
fn fill(node: &mut Node, last: u8, link: [u8; 6], now: Instant) {
    let (address, _) = neighbor(last);
    assert_eq!(node.take(now, &arp(2, link, address, OWN, SELF)), None);
}

fn asks(last: u8) -> Vec<Seen> {
    vec![Seen::Asks(neighbor(last).0.into())]
}

/// `docs/C.md`, The configuration.
#[test]
fn the_settings_are_those_of_the_table() {
    let settings = Settings::new(HardwareAddress::Ip);
    assert_eq!(settings.random_seed, 0);
    assert_eq!(settings.patience, Duration::from_micros(3_000_000));
    assert_eq!(settings.reassembly_timeout, Duration::from_micros(10_000_000));
    assert_eq!(settings.frame_len, 1514);
    assert_eq!(settings.sockets, 8);
    assert_eq!(settings.neighbors, 128);
    assert_eq!(settings.start, Instant::ZERO);
    assert!(!settings.slaac);
    assert_eq!(settings.burst, None);
}

/// `docs/C.md`, Codes.
#[test]
fn a_host_is_refused_with_its_reason() {
    let made = |change: fn(&mut Settings)| {
        let mut settings = settings();
        change(&mut settings);
        Host::new(&settings).map(|_| ())
    };
    assert_eq!(made(|_| ()), Ok(()));
    assert_eq!(made(|settings| settings.frame_len = 589), Err(Error::BadMtu));
    assert_eq!(made(|settings| settings.frame_len = 590), Ok(()));
    assert_eq!(made(|settings| settings.frame_len = 1515), Err(Error::BadMtu));
    assert_eq!(made(|settings| settings.reassembly_timeout = Duration::ZERO), Err(Error::BadTimeout));
    assert_eq!(made(|settings| settings.reassembly_timeout = Duration::from_secs(86_400)), Ok(()));
    assert_eq!(
        made(|settings| settings.reassembly_timeout = Duration::from_micros(86_400_000_001)),
        Err(Error::BadTimeout)
    );
    assert_eq!(made(|settings| settings.hardware_addr = EthernetAddress::BROADCAST.into()), Err(Error::NotUnicast));
    assert_eq!(made(|settings| (settings.hardware_addr, settings.frame_len) = (HardwareAddress::Ip, 576)), Ok(()));
}

/// `docs/C.md`, Codes: with room for four addresses, four routes and eight groups; the first code that applies.
#[test]
fn a_refused_call_says_why() {
    let mut settings = settings();
    (settings.sockets, settings.addresses, settings.routes, settings.groups) = (1, 4, 0, 8);
    let mut node = Node::of(&settings, &[CIDR]);
    let host = &mut node.host;
    let group = |last| IpAddress::v4(239, 0, 0, last);
    assert_eq!(host.add_address(IpCidr::new(group(1), 8)), Err(Error::NotUnicast));
    for last in 2..5 {
        host.add_address(IpCidr::new(IpAddress::v4(10, 0, 0, last), 8)).unwrap();
    }
    assert_eq!(host.add_address(CIDR), Err(Error::TableFull));
    assert_eq!(host.remove_address(IpCidr::new(SELF.into(), 25)), Err(Error::NotThere));
    assert_eq!(host.address_at(0), Some(CIDR));
    assert_eq!(host.address_at(4), None);
    assert_eq!(host.join_group(SELF.into()), Err(Error::BadAddress));
    for last in 1..=8 {
        host.join_group(group(last)).unwrap();
    }
    assert_eq!(host.join_group(group(9)), Err(Error::TableFull));
    assert_eq!(host.leave_group(SELF.into()), Err(Error::BadAddress));
    assert_eq!(host.leave_group(group(9)), Ok(()));
    for last in 1..=4 {
        host.add_route(IpCidr::new(IpAddress::v4(172, 16, last, 0), 24), IpAddress::v4(10, 0, 0, 9)).unwrap();
    }
    assert_eq!(host.set_default_route(IpAddress::v4(10, 0, 0, 9)), Err(Error::TableFull));
    assert_eq!(host.remove_route(IpCidr::new(IpAddress::v4(172, 16, 5, 0), 24)), Err(Error::NotThere));
    assert_eq!(host.udp_open(0.into(), Rooms::new(1, 1)), Err(Error::BadPort));
    let socket = host.udp_open(7.into(), Rooms::new(1, 8)).unwrap();
    assert_eq!(socket, 0);
    assert_eq!(host.udp_open(8.into(), Rooms::new(1, 1)), Err(Error::TableFull));
    let to = |address: IpAddress, port| IpEndpoint::new(address, port);
    let peer = IpAddress::v4(192, 168, 69, 2);
    assert_eq!(host.udp_send(socket, to(peer, 0), b""), Err(Error::BadPort));
    assert_eq!(host.udp_send(socket, to(IpAddress::v4(0, 0, 0, 0), 7), b""), Err(Error::BadAddress));
    assert_eq!(host.udp_send(socket, to(peer, 7), &[0; 4069]), Err(Error::TooLong));
    assert_eq!(host.udp_send(socket, to(peer, 7), &[0; 9]), Err(Error::QueueFull));
    assert_eq!(host.udp_send(socket, to(peer, 7), &[0; 8]), Ok(()));
    assert_eq!(host.udp_send(socket, to(peer, 7), b""), Err(Error::QueueFull));
    assert_eq!(host.udp_receive(socket, &mut []), Err(Error::Empty));
    assert_eq!(host.icmp_send(socket, peer, b""), Err(Error::NoSocket));
    assert_eq!(host.raw_receive(1, &mut []), Err(Error::NoSocket));
    assert_eq!(host.close(1), Err(Error::NoSocket));
    assert_eq!(host.waiting(1), Err(Error::NoSocket));
    assert_eq!(host.given_up(1), Err(Error::NoSocket));
    assert_eq!(host.close(socket), Ok(()));
    assert_eq!(host.close(socket), Err(Error::NoSocket));
}

/// RFC 826: the reply has the fields of the request exchanged, and the own hardware address.
#[test]
fn an_arp_request_is_answered() {
    let mut node = Node::new(&[CIDR]);
    let (peer, link) = neighbor(2);
    let reply = node.take(millis(0), &arp(1, link, peer, [0; 6], SELF)).unwrap();
    assert_eq!(reply, arp(2, OWN, SELF, link, peer));
}

/// smoltcp: `neighbor`, `test_fill`, `test_expire`: an entry lasts a minute.
#[test]
fn a_neighbor_is_known_until_its_end() {
    let mut node = Node::new(&[CIDR]);
    assert_eq!(node.lookup(neighbor(2).0, millis(0)), asks(2));
    fill(&mut node, 2, neighbor(2).1, millis(0));
    assert_eq!(node.lookup(neighbor(2).0, millis(0)), [Seen::Datagram(neighbor(2).1)]);
    assert_eq!(node.lookup(neighbor(2).0, Instant::from_secs(120)), asks(2));
}

/// smoltcp: `neighbor`, `test_replace`.
#[test]
fn a_neighbor_is_replaced() {
    let mut node = Node::new(&[CIDR]);
    fill(&mut node, 2, [0, 0, 0, 0, 0, 1], millis(0));
    assert_eq!(node.lookup(neighbor(2).0, millis(0)), [Seen::Datagram([0, 0, 0, 0, 0, 1])]);
    fill(&mut node, 2, [0, 0, 0, 0, 0, 2], millis(0));
    assert_eq!(node.lookup(neighbor(2).0, millis(0)), [Seen::Datagram([0, 0, 0, 0, 0, 2])]);
}

/// smoltcp: `neighbor`, `test_evict`, for four places: the entry that would end first makes room.
#[test]
fn the_neighbor_that_ends_first_makes_room() {
    let mut few = settings();
    few.neighbors = 4;
    let mut node = Node::of(&few, &[CIDR]);
    for (last, at) in [(11, 100), (12, 50), (13, 200), (15, 400)] {
        fill(&mut node, last, neighbor(last).1, millis(at));
    }
    assert_eq!(node.lookup(neighbor(12).0, millis(1000)), [Seen::Datagram(neighbor(12).1)]);
    fill(&mut node, 14, neighbor(14).1, millis(300));
    assert_eq!(node.lookup(neighbor(14).0, millis(1000)), [Seen::Datagram(neighbor(14).1)]);
    assert_eq!(node.lookup(neighbor(12).0, millis(1000)), asks(12));
}

/// smoltcp: `neighbor`, `test_hush`: no second request at 100 ms, one at 2 s.
#[test]
fn requests_are_limited() {
    let mut node = Node::new(&[CIDR]);
    assert_eq!(node.lookup(neighbor(2).0, millis(0)), asks(2));
    assert_eq!(node.lookup(neighbor(2).0, millis(100)), []);
    assert_eq!(node.lookup(neighbor(2).0, millis(2000)), asks(2));
}

/// smoltcp: `neighbor`, `test_flush`; new addresses flush.
#[test]
fn an_address_that_is_added_forgets_neighbors() {
    let mut node = Node::new(&[CIDR]);
    fill(&mut node, 2, neighbor(2).1, millis(0));
    assert_eq!(node.lookup(neighbor(2).0, millis(0)), [Seen::Datagram(neighbor(2).1)]);
    node.host.add_address(IpCidr::new(IpAddress::v4(10, 0, 0, 1), 8)).unwrap();
    assert_eq!(node.lookup(neighbor(2).0, millis(0)), asks(2));
}

/// smoltcp: `route`, `test_fill`, by whom the host asks for.
#[test]
fn routes_are_found() {
    let router_1: Ipv4Address = Ipv4Address::new(192, 168, 69, 101);
    let router_2: Ipv4Address = Ipv4Address::new(192, 168, 69, 102);
    let (addr_1b, addr_1c) = (Ipv4Address::new(192, 0, 2, 13), Ipv4Address::new(192, 0, 2, 42));
    let addr_2b = Ipv4Address::new(198, 51, 100, 21);
    let mut node = Node::new(&[CIDR]);
    let socket = node.host.udp_open(7.into(), Rooms::new(1, 64)).unwrap();
    assert_eq!(node.host.udp_send(socket, IpEndpoint::new(addr_1b.into(), 9), b"lookup"), Err(Error::NoRoute));
    assert_eq!(node.lookup(addr_1b, millis(0)), []);
    assert_eq!(node.lookup(addr_2b, millis(0)), []);
    node.host.add_route("192.0.2.0/24".parse().unwrap(), router_1.into()).unwrap();
    assert_eq!(node.lookup(addr_1b, millis(2000)), [Seen::Asks(router_1.into())]);
    assert_eq!(node.lookup(addr_1c, millis(4000)), [Seen::Asks(router_1.into())]);
    assert_eq!(node.lookup(addr_2b, millis(6000)), []);
    node.host.add_route("198.51.100.0/24".parse().unwrap(), router_2.into()).unwrap();
    assert_eq!(node.lookup(addr_1b, millis(8000)), [Seen::Asks(router_1.into())]);
    assert_eq!(node.lookup(addr_2b, millis(10_000)), [Seen::Asks(router_2.into())]);
    node.host.remove_route("192.0.2.0/24".parse().unwrap()).unwrap();
    assert_eq!(node.lookup(addr_1b, millis(12_000)), []);
}

/// smoltcp: `slaac`, `test_solicitation`, and RFC 4861 10: three solicitations, four seconds apart.
#[test]
fn routers_are_solicited() {
    let mut with_slaac = settings();
    with_slaac.slaac = true;
    let mut node = Node::of(&with_slaac, &[LINK_LOCAL]);
    let solicited = |node: &mut Node, now| node.sends(now).contains(&Seen::SolicitsRouters);
    let now = millis(1);
    assert!(solicited(&mut node, now));
    assert!(!solicited(&mut node, now));
    let next_poll = node.host.poll_at(now).unwrap();
    assert_eq!(next_poll, now + Duration::from_secs(4));
    assert!(solicited(&mut node, next_poll));
    assert!(solicited(&mut node, next_poll + Duration::from_secs(4)));
    assert!(!solicited(&mut node, next_poll + Duration::from_secs(8)));
}

/// smoltcp: `slaac`, `test_ra_state`: its router and prefix, the prefix valid for 700 s; the identifier is RFC 4291's,
/// appendix A. `iface.h`: the moment is 0 before the first time.
#[test]
fn an_address_comes_from_a_router_and_ends() {
    let mut with_slaac = settings();
    with_slaac.slaac = true;
    let mut node = Node::of(&with_slaac, &[LINK_LOCAL]);
    let now = Instant::from_secs(300);
    node.sends(now);
    let router = Ipv6Address::new(0xfe80, 0xdb8, 0, 0, 0, 0, 0, 0);
    let prefix = Ipv6Address::new(0x2001, 0xdb8, 0, 0, 0, 0, 0, 0);
    assert_eq!(node.take(now, &advertisement(router, 600, prefix, 700, 300)), None);
    assert_eq!(node.host.slaac_updated_at(), Instant::ZERO);
    node.sends(now);
    assert_eq!(node.host.slaac_updated_at(), now);
    let formed = IpCidr::new(IpAddress::v6(0x2001, 0xdb8, 0, 0, 0, 0xff, 0xfe00, 1), 64);
    assert_eq!((node.host.address_at(1), node.host.address_at(2)), (Some(formed), None));
    node.sends(now + Duration::from_secs(699));
    assert_eq!(node.host.address_at(1), Some(formed));
    node.sends(now + Duration::from_secs(700));
    assert_eq!(node.host.address_at(1), None);
    assert_eq!(node.host.slaac_updated_at(), now + Duration::from_secs(700));
}

/// smoltcp: `fragmentation`, `packet_assembler_out_of_order_assemble`: its text in a datagram.
#[test]
fn fragments_are_put_together_out_of_order() {
    let mut node = Node::new(&[CIDR]);
    let (peer, link) = neighbor(2);
    let socket = node.host.udp_open(7.into(), Rooms::new(4, 64)).unwrap();
    let whole = udp4(peer, SELF, (9, 7), b"Hello World!");
    let (head, tail) = whole[20..].split_at(16);
    let first = ethernet(OWN, link, 0x0800, &ipv4(peer, SELF, 17, 1, 0x2000, head));
    let second = ethernet(OWN, link, 0x0800, &ipv4(peer, SELF, 17, 1, 2, tail));
    let mut out = [0; 64];
    node.take(millis(0), &second);
    assert_eq!(node.host.udp_receive(socket, &mut out), Err(Error::Empty));
    node.take(millis(0), &first);
    assert_eq!(node.host.udp_receive(socket, &mut out[..11]), Err(Error::NoRoom));
    assert_eq!(node.host.udp_receive(socket, &mut out), Ok((12, (peer, 9).into())));
    assert_eq!(&out[..12], b"Hello World!");
}

/// RFC 791, 3.2: when the timer runs out, what was put together is dropped. `iface.h`: not 0, at most a day.
#[test]
fn fragments_wait_as_long_as_is_set() {
    let mut node = Node::new(&[CIDR]);
    let (peer, link) = neighbor(2);
    let socket = node.host.udp_open(7.into(), Rooms::new(4, 64)).unwrap();
    let whole = udp4(peer, SELF, (9, 7), b"Hello World!");
    let (head, tail) = whole[20..].split_at(16);
    let mut now = millis(0);
    assert_eq!(node.host.reassembly_timeout(), Duration::from_secs(10));
    for (timeout, ident, comes) in [(1, 1, false), (3, 2, true)] {
        node.host.set_reassembly_timeout(Duration::from_secs(timeout)).unwrap();
        node.take(now, &ethernet(OWN, link, 0x0800, &ipv4(peer, SELF, 17, ident, 0x2000, head)));
        now += Duration::from_secs(2);
        node.sends(now);
        node.take(now, &ethernet(OWN, link, 0x0800, &ipv4(peer, SELF, 17, ident, 2, tail)));
        assert_eq!(node.host.udp_receive(socket, &mut [0; 64]).is_ok(), comes);
    }
    for refused in [Duration::ZERO, Duration::from_micros(86_400_000_001)] {
        assert_eq!(node.host.set_reassembly_timeout(refused), Err(Error::BadTimeout));
        assert_eq!(node.host.reassembly_timeout(), Duration::from_secs(3));
    }
}

/// smoltcp: `set_any_ip`: packets are taken to a prefix whose route has an own address as its gateway.
#[test]
fn addresses_that_are_routed_to_it_count_as_own() {
    let mut node = Node::new(&[CIDR]);
    let (peer, link) = neighbor(2);
    let socket = node.host.udp_open(7.into(), Rooms::new(4, 64)).unwrap();
    node.host.add_route("10.1.0.0/16".parse().unwrap(), SELF.into()).unwrap();
    let comes = |node: &mut Node, to| {
        node.take(millis(0), &ethernet(OWN, link, 0x0800, &udp4(peer, to, (9, 7), b"x")));
        node.host.udp_receive(socket, &mut [0; 1]).is_ok()
    };
    let (routed, other) = (Ipv4Address::new(10, 1, 2, 3), Ipv4Address::new(10, 2, 2, 3));
    assert!(!node.host.any_ip() && !comes(&mut node, routed));
    node.host.set_any_ip(true);
    assert!(node.host.any_ip() && comes(&mut node, routed) && !comes(&mut node, other) && comes(&mut node, SELF));
    node.host.set_any_ip(false);
    assert!(!node.host.any_ip() && !comes(&mut node, routed));
}

/// RFC 826: the reply has the own hardware address, which is the one that was set last. `iface.h`: frames to that are
/// taken; a medium without hardware addresses has none.
#[test]
fn the_hardware_address_is_the_one_that_was_set_last() {
    let mut node = Node::new(&[CIDR]);
    let (peer, link) = neighbor(2);
    let other = [2, 0, 0, 0, 0, 7];
    let socket = node.host.udp_open(7.into(), Rooms::new(4, 64)).unwrap();
    let comes = |node: &mut Node, to| {
        node.take(millis(0), &ethernet(to, link, 0x0800, &udp4(peer, SELF, (9, 7), b"x")));
        node.host.udp_receive(socket, &mut [0; 1]).is_ok()
    };
    assert_eq!(node.host.set_hardware_address(EthernetAddress::BROADCAST), Err(Error::NotUnicast));
    assert_eq!(node.host.hardware_address(), Some(EthernetAddress(OWN)));
    assert!(comes(&mut node, OWN) && !comes(&mut node, other));
    node.host.set_hardware_address(EthernetAddress(other)).unwrap();
    assert_eq!(node.host.hardware_address(), Some(EthernetAddress(other)));
    assert!(!comes(&mut node, OWN) && comes(&mut node, other));
    let reply = node.take(millis(0), &arp(1, link, peer, [0; 6], SELF)).unwrap();
    assert_eq!(reply, arp(2, other, SELF, link, peer));
    assert_eq!(node.host.address_at(0), Some(CIDR));
    let mut without = Host::new(&Settings::new(HardwareAddress::Ip)).unwrap();
    assert_eq!(without.hardware_address(), None);
    assert_eq!(without.set_hardware_address(EthernetAddress(other)), Err(Error::NotThere));
}

/// RFC 768: a checksum of 0 says that there is none. smoltcp's `Checksum` says who verifies it, and who computes it.
#[test]
fn a_checksum_is_verified_and_computed_where_it_is_the_librarys() {
    let (peer, _) = neighbor(2);
    let mut wrong = udp4(peer, SELF, (5, 7), b"hi");
    wrong[27] ^= 1;
    for checksum in [Checksum::Both, Checksum::Rx, Checksum::Tx, Checksum::None] {
        let mut settings = Settings::new(HardwareAddress::Ip);
        settings.checksum.udp = checksum;
        let mut node = Node::of(&settings, &[CIDR]);
        let socket = node.host.udp_open(7.into(), Rooms::new(1, 8)).unwrap();
        let answer = node.take(millis(0), &wrong);
        let received = node.host.udp_receive(socket, &mut [0; 8]);
        assert_eq!((answer, received.is_ok()), (None, !checksum.rx()));
        node.host.udp_send(socket, IpEndpoint::new(peer.into(), 5), b"hi").unwrap();
        let sent = node.frames(millis(0));
        assert_eq!(sent[0][26..28] == [0, 0], !checksum.tx());
    }
    let ignored = ChecksumCapabilities::ignored();
    assert!(!ignored.ipv4.rx() && !ignored.udp.tx() && ignored.icmpv6 == Checksum::None);
    assert_eq!(Settings::new(HardwareAddress::Ip).checksum, ChecksumCapabilities::default());
}

/// RFC 1112, 4: all hosts are in 224.0.0.1; RFC 4291, 2.8: in ff02::1 and the solicited-node groups of their addresses.
#[test]
fn a_host_is_in_the_groups_that_it_joined_and_in_some_others() {
    let mut node = Node::new(&[CIDR, LINK_LOCAL]);
    let is_in = |node: &mut Node, text: &str| node.host.has_group(text.parse().unwrap());
    for group in ["224.0.0.1", "ff02::1", "ff02::1:ff00:1"] {
        assert!(is_in(&mut node, group));
    }
    for no_group in ["192.168.69.1", "fe80::1", "0.0.0.0", "224.0.0.2", "ff02::2", "ff02::1:ff00:2"] {
        assert!(!is_in(&mut node, no_group));
    }
    for group in ["239.1.2.3", "ff15::69"] {
        assert!(!is_in(&mut node, group));
        node.host.join_group(group.parse().unwrap()).unwrap();
        assert!(is_in(&mut node, group));
        node.host.leave_group(group.parse().unwrap()).unwrap();
        assert!(!is_in(&mut node, group));
    }
}

/// `docs/C.md`, A neighbour that doesn't answer: requests a second apart; given up in the first round after three
/// seconds, at most one second later; told once, and counted.
#[test]
fn a_neighbor_that_does_not_answer_is_given_up() {
    let mut node = Node::new(&[CIDR]);
    let socket = node.host.udp_open(7.into(), Rooms::new(4, 64)).unwrap();
    let absent = neighbor(9).0;
    assert_eq!(node.host.waiting(socket), Ok(None));
    node.host.udp_send(socket, (absent, 9).into(), b"anybody?").unwrap();
    let mut now = millis(0);
    assert_eq!(node.sends(now), asks(9));
    assert_eq!(node.host.waiting(socket), Ok(Some((absent.into(), now))));
    assert_eq!(node.host.given_up(socket), Ok(None));
    let mut requests = vec![now];
    while node.host.given_up_count() == 0 {
        now = node.host.poll_at(now).expect("something is due").max(now + Duration::from_micros(1));
        assert!(now <= Instant::from_secs(4));
        requests.extend(node.sends(now).iter().map(|_| now));
    }
    assert!(now >= Instant::from_secs(3));
    assert_eq!(requests, [millis(0), millis(1000), millis(2000)]);
    assert_eq!(node.host.given_up(socket), Ok(Some(absent.into())));
    assert_eq!(node.host.given_up(socket), Ok(None));
    assert_eq!((node.host.given_up_count(), node.host.waiting(socket)), (1, Ok(None)));
}

/// `docs/C.md`, The configuration: with a patience of 0 a packet waits for ever.
#[test]
fn without_patience_a_packet_waits() {
    let mut for_ever = settings();
    for_ever.patience = Duration::ZERO;
    let mut node = Node::of(&for_ever, &[CIDR]);
    let socket = node.host.udp_open(7.into(), Rooms::new(4, 64)).unwrap();
    node.host.udp_send(socket, (neighbor(9).0, 9).into(), b"anybody?").unwrap();
    for hour in 0..24 {
        assert_eq!(node.sends(Instant::from_secs(hour * 3600)), asks(9));
    }
    assert_eq!(node.host.given_up_count(), 0);
}

/// RFC 2464, 4: the identifier of 34-56-78-9A-BC-DE; RFC 4291, 2.5.6: the prefix; a group's address has none.
#[test]
fn a_hardware_address_makes_a_link_local_one() {
    let made = |octets| Host::link_local(EthernetAddress(octets));
    let want = Ipv6Address::new(0xfe80, 0, 0, 0, 0x3656, 0x78ff, 0xfe9a, 0xbcde);
    assert_eq!(made([0x34, 0x56, 0x78, 0x9a, 0xbc, 0xde]), Ok(want));
    assert_eq!(made([0x35, 0x56, 0x78, 0x9a, 0xbc, 0xde]), Err(Error::NotUnicast));
    assert_eq!(made([0xff; 6]), Err(Error::NotUnicast));
}

/// `iface.h`: a list of as many as there is room for, all at once; refused, nothing has changed. smoltcp's `update_ip_addrs` flushes.
#[test]
fn addresses_are_set_at_once() {
    let other = IpCidr::new(IpAddress::v4(10, 0, 0, 9), 8);
    let mut node = Node::new(&[CIDR, other]);
    let addresses = |node: &mut Node| (0..).map_while(|index| node.host.address_at(index)).collect::<Vec<_>>();
    fill(&mut node, 2, neighbor(2).1, millis(0));
    let nine: Vec<IpCidr> = (1..=9).map(|last| IpCidr::new(IpAddress::v4(10, 0, 0, last), 8)).collect();
    assert_eq!(node.host.set_addresses(&nine), Err(Error::TableFull));
    assert_eq!(node.host.set_addresses(&[nine[0]; 17]), Err(Error::TableFull));
    assert_eq!(node.host.set_addresses(&[nine[0], "224.0.0.1/4".parse().unwrap()]), Err(Error::NotUnicast));
    assert_eq!(addresses(&mut node), [CIDR, other]);
    assert_eq!(node.lookup(neighbor(2).0, millis(0)), [Seen::Datagram(neighbor(2).1)]);
    for list in [&nine[..8], &[CIDR], &[], &[CIDR, CIDR, other]] {
        node.host.set_addresses(list).unwrap();
        assert_eq!(addresses(&mut node), list);
    }
    assert_eq!(node.lookup(neighbor(2).0, millis(0)), asks(2));
}

/// smoltcp: `route`, `test_fill`: the second route's end is at 10 ms, and it is used then; `lookup`: not after it.
/// `iface.h`: it stays in the table.
#[test]
fn a_route_is_used_until_its_end() {
    let router_1: IpAddress = IpAddress::v4(192, 168, 69, 101);
    let router_2: IpAddress = IpAddress::v4(192, 168, 69, 102);
    let (cidr_1, cidr_2) = ("192.0.2.0/24".parse().unwrap(), "198.51.100.0/24".parse().unwrap());
    let (addr_1b, addr_2b) = (Ipv4Address::new(192, 0, 2, 13), Ipv4Address::new(198, 51, 100, 21));
    let route = |cidr, via_router, expires_at| Route { cidr, via_router, preferred_until: None, expires_at };
    let mut few = settings();
    few.routes = 0;
    let mut node = Node::of(&few, &[CIDR]);
    assert_eq!(node.host.route_at(0), None);
    node.host.add_route_until(cidr_1, router_1, None).unwrap();
    node.host.add_route_until(cidr_2, router_2, Some(millis(10))).unwrap();
    node.host.set_default_route(SELF.into()).unwrap();
    let gateway = Route::new_ipv4_gateway(SELF);
    let all = [route(cidr_1, router_1, None), route(cidr_2, router_2, Some(millis(10))), gateway];
    assert_eq!((0..).map_while(|index| node.host.route_at(index)).collect::<Vec<_>>(), all);
    assert!(gateway.is_ipv4_gateway() && !gateway.is_ipv6_gateway() && !all[0].is_ipv4_gateway());
    node.host.remove_route("0.0.0.0/0".parse().unwrap()).unwrap();
    assert_eq!(node.lookup(addr_2b, millis(10)), [Seen::Asks(router_2)]);
    assert_eq!(node.lookup(addr_1b, millis(2000)), [Seen::Asks(router_1)]);
    assert_eq!(node.lookup(addr_2b, millis(4000)), []);
    assert_eq!(node.host.route_at(1), Some(all[1]));
    node.host.add_route_until(cidr_2, router_2, Some(Instant::LAST)).unwrap();
    assert_eq!(node.host.route_at(2), Some(route(cidr_2, router_2, Some(Instant::LAST))));
    assert_eq!(node.lookup(addr_2b, millis(6000)), [Seen::Asks(router_2)]);
    node.host.add_route(cidr_1, router_1).unwrap();
    assert_eq!(node.host.add_route_until(cidr_1, router_1, None), Err(Error::TableFull));
}

/// RFC 6724, 10.1: the destination, the candidates in either order, and the source. smoltcp's `get_source_address`:
/// over IPv4 the first address in the destination's subnet, else the first one; ::1 and none where the host has none.
#[test]
fn the_source_is_the_one_of_the_rfc() {
    let mut node = Node::new(&[]);
    let mut serves = |own: &[&str], to: &str| {
        let own: Vec<IpCidr> = own.iter().map(|text| text.parse().unwrap()).collect();
        node.host.set_addresses(&own).unwrap();
        node.host.source_for(to.parse().unwrap()).map(|source| source.to_string())
    };
    let rfc_6724 = [
        ("2001:db8:1::1", ["2001:db8:3::1/64", "fe80::1/64"], "2001:db8:3::1"),
        ("ff05::1", ["2001:db8:3::1/64", "fe80::1/64"], "2001:db8:3::1"),
        ("2001:db8:1::1", ["2001:db8:1::1/64", "2001:db8:2::1/64"], "2001:db8:1::1"),
        ("fe80::1", ["fe80::2/64", "2001:db8:1::1/64"], "fe80::2"),
        ("2001:db8:1::1", ["2001:db8:1::2/64", "2001:db8:3::2/64"], "2001:db8:1::2"),
    ];
    for (to, [a, b], want) in rfc_6724 {
        assert_eq!(serves(&[a, b], to).as_deref(), Some(want));
        assert_eq!(serves(&[b, a], to).as_deref(), Some(want));
    }
    let own = ["192.168.69.1/24", "10.0.0.1/8", "10.0.0.2/8"];
    assert_eq!(serves(&own, "10.1.2.3").as_deref(), Some("10.0.0.1"));
    assert_eq!(serves(&own, "192.168.69.7").as_deref(), Some("192.168.69.1"));
    assert_eq!(serves(&own, "8.8.8.8").as_deref(), Some("192.168.69.1"));
    assert_eq!(serves(&own, "2001:db8:1::1").as_deref(), Some("::1"));
    assert_eq!(serves(&["2001:db8:1::2/64"], "8.8.8.8"), None);
}

/// smoltcp: `neighbor`, `test_evict`: an entry lasts a minute, and the one that would end first makes room.
#[test]
fn neighbors_are_read_by_rising_ends() {
    let mut few = settings();
    (few.neighbors, few.guard) = (0, None);
    let mut node = Node::of(&few, &[CIDR]);
    let known = |node: &mut Node| {
        (0..)
            .map_while(|index| node.host.neighbor_at(index))
            .map(|known| (known.protocol_addr, known.hardware_addr.0, known.expires_at))
            .collect::<Vec<_>>()
    };
    let entry = |last, at: i64| (neighbor(last).0.into(), neighbor(last).1, millis(at + 60_000));
    assert_eq!(known(&mut node), []);
    for (last, at) in [(11, 100), (12, 50), (13, 200), (15, 400)] {
        fill(&mut node, last, neighbor(last).1, millis(at));
    }
    assert_eq!(known(&mut node), [entry(12, 50), entry(11, 100), entry(13, 200), entry(15, 400)]);
    fill(&mut node, 14, neighbor(14).1, millis(300));
    assert_eq!(known(&mut node), [entry(11, 100), entry(13, 200), entry(14, 300), entry(15, 400)]);
    node.host.set_addresses(&[CIDR]).unwrap();
    assert_eq!(known(&mut node), []);
    let mut without = Host::new(&Settings::new(HardwareAddress::Ip)).unwrap();
    assert_eq!(without.neighbor_at(0), None);
}

/// `docs/C.md`, The configuration: as many are known as there is room for, of both versions together.
#[test]
fn as_many_neighbors_are_known_as_there_is_room_for() {
    for room in [0, 1, 5, 64, 200] {
        let mut with_room = settings();
        (with_room.neighbors, with_room.guard) = (room, None);
        let mut node = Node::of(&with_room, &[CIDR]);
        for last in 2..=250 {
            fill(&mut node, last, neighbor(last).1, millis(last.into()));
        }
        let known: Vec<_> = (0..).map_while(|index| node.host.neighbor_at(index)).collect();
        let first = 251 - if room == 0 { 4 } else { u8::try_from(room).unwrap() };
        let addresses: Vec<IpAddress> = (first..=250).map(|last| neighbor(last).0.into()).collect();
        assert_eq!(known.iter().map(|known| known.protocol_addr).collect::<Vec<_>>(), addresses);
    }
}

/// Where a header has its time to live (RFC 791, 3.1), or hop limit (RFC 8200, 3): behind that of Ethernet.
fn hop_limit_of(frame: &[u8]) -> u8 {
    if frame[12..14] == [0x86, 0xdd] { frame[21] } else { frame[22] }
}

/// IANA: 64, unless another is set; RFC 1122, 3.2.1.7: not 0. `iface.h`: also of packets that wait; raw sockets have
/// none.
#[test]
fn packets_are_sent_with_the_hop_limit_of_their_socket() {
    let mut node = Node::new(&[CIDR]);
    let (peer, link) = neighbor(2);
    fill(&mut node, 2, link, millis(0));
    let udp = node.host.udp_open(7.into(), Rooms::new(4, 64)).unwrap();
    let icmp = node.host.icmp_open_ident(1, Rooms::new(4, 64)).unwrap();
    let raw = node.host.raw_open(IpVersion::Ipv4, IpProtocol::Unknown(253), Rooms::new(4, 64)).unwrap();
    assert_eq!((node.host.hop_limit(udp), node.host.hop_limit(icmp)), (Ok(64), Ok(64)));
    for (udp_limit, icmp_limit) in [(64, 64), (1, 255), (255, 2)] {
        node.host.udp_send(udp, (peer, 9).into(), b"x").unwrap();
        node.host.icmp_send(icmp, peer.into(), &[8, 0, 0, 0, 0, 1, 0, 1]).unwrap();
        node.host.set_hop_limit(udp, udp_limit).unwrap();
        node.host.set_hop_limit(icmp, icmp_limit).unwrap();
        let sent: Vec<u8> = node.frames(millis(0)).iter().map(|frame| hop_limit_of(frame)).collect();
        assert_eq!(sent, [udp_limit, icmp_limit]);
    }
    assert_eq!(node.host.set_hop_limit(udp, 0), Err(Error::BadArgument));
    assert_eq!(node.host.hop_limit(udp), Ok(255));
    assert_eq!(
        (node.host.hop_limit(raw), node.host.set_hop_limit(raw, 1)),
        (Err(Error::NoSocket), Err(Error::NoSocket))
    );
    assert_eq!((node.host.hop_limit(3), node.host.set_hop_limit(3, 1)), (Err(Error::NoSocket), Err(Error::NoSocket)));
}

/// `iface.h`: packets, their octets together, and those of the first one, in a queue of so many of each.
#[test]
fn queues_tell_what_waits() {
    let mut node = Node::new(&[CIDR]);
    let (peer, link) = neighbor(2);
    let socket = node.host.udp_open(7.into(), Rooms::new(3, 64)).unwrap();
    let told = |node: &mut Node| {
        let queues = node.host.queues(socket).unwrap();
        [queues.received, queues.to_send].map(|queue| {
            assert_eq!((queue.most_packets, queue.most_octets), (3, 64));
            (queue.packets, queue.octets, queue.first)
        })
    };
    assert_eq!(told(&mut node), [(0, 0, None), (0, 0, None)]);
    for text in [b"".as_slice(), b"three", b"four"] {
        node.take(millis(0), &ethernet(OWN, link, 0x0800, &udp4(peer, SELF, (9, 7), text)));
    }
    assert_eq!(told(&mut node), [(3, 9, Some(0)), (0, 0, None)]);
    node.host.udp_receive(socket, &mut [0; 64]).unwrap();
    assert_eq!(told(&mut node), [(2, 9, Some(5)), (0, 0, None)]);
    node.host.udp_send(socket, (peer, 9).into(), b"sixty").unwrap();
    node.host.udp_send(socket, (peer, 9).into(), b"x").unwrap();
    assert_eq!(told(&mut node), [(2, 9, Some(5)), (2, 6, Some(5))]);
    fill(&mut node, 2, link, millis(0));
    node.sends(millis(0));
    assert_eq!(told(&mut node), [(2, 9, Some(5)), (0, 0, None)]);
    assert_eq!(node.host.queues(1), Err(Error::NoSocket));
}

/// smoltcp's `PollResult` and `PollIngressSingleResult`: an empty frame, a request for a neighbour and a group's report
/// change no socket; a frame that isn't empty may, and a packet of a socket that is sent does.
#[test]
fn it_is_told_once_that_sockets_may_have_changed() {
    let mut node = Node::new(&[CIDR]);
    let (peer, link) = neighbor(2);
    let socket = node.host.udp_open(7.into(), Rooms::new(4, 64)).unwrap();
    let changed = |node: &mut Node| (node.host.sockets_changed(), node.host.sockets_changed());
    assert_eq!(changed(&mut node), (false, false));
    node.take(millis(0), &[]);
    assert_eq!(changed(&mut node), (false, false));
    node.host.join_group(IpAddress::v4(239, 1, 2, 3)).unwrap();
    assert_eq!((node.sends(millis(0)).len(), changed(&mut node)), (1, (false, false)));
    node.host.udp_send(socket, (peer, 9).into(), b"x").unwrap();
    assert_eq!((node.sends(millis(0)), changed(&mut node)), (asks(2), (false, false)));
    fill(&mut node, 2, link, millis(0));
    assert_eq!(changed(&mut node), (true, false));
    assert_eq!((node.sends(millis(0)), changed(&mut node)), (vec![Seen::Datagram(link)], (true, false)));
    assert_eq!((node.sends(millis(0)), changed(&mut node)), (vec![], (false, false)));
}

/// `docs/C.md`, Counters.
#[test]
fn frames_are_counted() {
    let mut node = Node::new(&[CIDR]);
    let (peer, link) = neighbor(2);
    let socket = node.host.udp_open(7.into(), Rooms::new(4, 64)).unwrap();
    let counted = |node: &mut Node| {
        let counters = node.host.counters();
        (counters.frames_in, counters.frames_out, counters.given_up, counters.no_memory)
    };
    assert_eq!(counted(&mut node), (0, 0, 0, 0));
    node.take(millis(0), &arp(1, link, peer, [0; 6], SELF)).unwrap();
    assert_eq!(counted(&mut node), (1, 1, 0, 0));
    node.host.udp_send(socket, (peer, 9).into(), b"x").unwrap();
    node.host.udp_send(socket, (neighbor(9).0, 9).into(), b"anybody?").unwrap();
    for second in 0..=4 {
        node.sends(Instant::from_secs(second));
    }
    // The datagram, and three requests.
    assert_eq!(counted(&mut node), (1, 5, 1, 0));
}

/// RFC 4861, 6.3.7: a host solicits when it begins. `iface.h`: any moment that it takes may be its start.
#[test]
fn a_host_begins_at_its_start() {
    for start in [Instant::ZERO, Instant::from_secs(1000), Instant::LAST] {
        let mut later = settings();
        (later.slaac, later.start) = (true, start);
        let mut node = Node::of(&later, &[LINK_LOCAL]);
        assert!(node.host.poll_at(start).unwrap() <= start);
        assert!(node.sends(start).contains(&Seen::SolicitsRouters));
    }
}

/// `iface.h`: a socket at 0.0.0.0 or :: is at any address, of both versions; none is at a group or 255.255.255.255.
#[test]
fn a_socket_at_an_unspecified_address_is_at_any() {
    let mut node = Node::new(&[CIDR, LINK_LOCAL]);
    let at = |text: &str, port| IpListenEndpoint { addr: text.parse().ok(), port };
    for refused in ["224.0.0.1", "255.255.255.255", "ff02::1"] {
        assert_eq!(node.host.udp_open(at(refused, 7), Rooms::new(4, 64)), Err(Error::BadAddress));
    }
    let (peer, link) = neighbor(2);
    let peer_6 = Ipv6Address::new(0xfe80, 0, 0, 0, 0, 0, 0, 2);
    let IpAddress::Ipv6(own_6) = LINK_LOCAL.address() else { panic!("another version") };
    let mut out = [0; 64];
    for (port, text, over_4, over_6) in
        [(7, "", true, true), (8, "0.0.0.0", true, true), (9, "::", true, true), (10, "192.168.69.1", true, false)]
    {
        let socket = node.host.udp_open(at(text, port), Rooms::new(4, 64)).unwrap();
        node.take(millis(0), &ethernet(OWN, link, 0x0800, &udp4(peer, SELF, (9, port), b"four")));
        assert_eq!(node.host.udp_receive(socket, &mut out).is_ok(), over_4);
        node.take(millis(0), &ethernet(OWN, link, 0x86dd, &udp6(peer_6, own_6, (9, port), b"six")));
        assert_eq!(node.host.udp_receive(socket, &mut out).is_ok(), over_6);
    }
}

/// `iface.h`: each of a socket's queues holds what it is given.
#[test]
fn queues_are_of_two_sizes() {
    let mut node = Node::new(&[CIDR]);
    let rooms = Rooms { received: Room { packets: 3, octets: 500 }, to_send: Room { packets: 2, octets: 40 } };
    let sockets = [
        node.host.udp_open(7.into(), rooms).unwrap(),
        node.host.raw_open(IpVersion::Ipv4, IpProtocol::Unknown(253), rooms).unwrap(),
        node.host.icmp_open_ident(1, rooms).unwrap(),
        node.host.icmp_open_port(7, rooms).unwrap(),
        node.host.tcp_open(7.into(), None, rooms).unwrap(),
    ];
    for socket in sockets {
        let queues = node.host.queues(socket).unwrap();
        assert_eq!((queues.received.most_packets, queues.received.most_octets), (3, 500));
        assert_eq!((queues.to_send.most_packets, queues.to_send.most_octets), (2, 40));
    }
}

/// `iface.h`: what is looked at stays, and is the first one as it is taken.
#[test]
fn packets_are_looked_at() {
    let mut node = Node::new(&[CIDR]);
    let (peer, link) = neighbor(2);
    let rooms = Rooms::new(4, 256);
    let udp = node.host.udp_open(7.into(), rooms).unwrap();
    let raw = node.host.raw_open(IpVersion::Ipv4, IpProtocol::Unknown(253), rooms).unwrap();
    let icmp = node.host.icmp_open_ident(0x22b, rooms).unwrap();
    let mut out = [0; 64];
    assert_eq!(node.host.udp_peek(udp, &mut out), Err(Error::Empty));
    assert_eq!(node.host.udp_peek(raw, &mut out), Err(Error::NoSocket));
    for payload in [b"one".as_slice(), b"two"] {
        node.take(millis(0), &ethernet(OWN, link, 0x0800, &udp4(peer, SELF, (9, 7), payload)));
    }
    node.take(millis(0), &ethernet(OWN, link, 0x0800, &ipv4(peer, SELF, 253, 0, 0, b"packet")));
    let mut reply = vec![0, 0, 0, 0, 2, 0x2b, 0, 1, b'x'];
    let check = common::sum(&reply).to_be_bytes();
    reply[2..4].copy_from_slice(&check);
    node.take(millis(0), &ethernet(OWN, link, 0x0800, &ipv4(peer, SELF, 1, 0, 0, &reply)));
    for _ in 0..2 {
        assert_eq!(node.host.udp_peek(udp, &mut out), Ok((3, IpEndpoint::new(peer.into(), 9))));
        assert_eq!(&out[..3], b"one");
        assert_eq!(node.host.raw_peek(raw, &mut out), Ok(26));
        assert_eq!(&out[20..26], b"packet");
        assert_eq!(node.host.icmp_peek(icmp, &mut out), Ok((9, peer.into())));
        assert_eq!(out[..9], reply);
        assert_eq!(node.host.udp_peek(udp, &mut out[..2]), Err(Error::NoRoom));
    }
    assert_eq!(node.host.queues(udp).unwrap().received.packets, 2);
    for payload in [b"one", b"two"] {
        assert_eq!(node.host.udp_receive(udp, &mut out).unwrap().0, 3);
        assert_eq!(&out[..3], payload);
    }
    assert_eq!(node.host.raw_receive(raw, &mut out), Ok(26));
    assert_eq!(node.host.raw_peek(raw, &mut out), Err(Error::Empty));
}

/// RFC 9293, 3.1 (the header) and 3.10.7.1 (a reset for a segment of no connection): a socket hands a SYN in, and one that
/// acknowledges it out; when it holds back it sends later, and when it is aborted it answers by a reset.
#[test]
fn segments_are_handed_in_and_out() {
    let mut node = Node::new(&[CIDR]);
    let (peer, link) = neighbor(2);
    let mut out = [0; 64];
    let from = IpEndpoint::new(peer.into(), 1024);
    let at = |host: &mut Host, remote| host.tcp_open(80.into(), remote, Rooms::new(4, 256));
    assert_eq!(at(&mut node.host, Some(IpEndpoint::new(peer.into(), 0))), Err(Error::BadPort));
    assert_eq!(at(&mut node.host, Some(IpEndpoint::new(IpAddress::v4(0, 0, 0, 0), 9))), Err(Error::BadAddress));
    let other = at(&mut node.host, Some(IpEndpoint::new(peer.into(), 1025))).unwrap();
    let socket = at(&mut node.host, None).unwrap();
    fill(&mut node, 2, link, millis(0));
    let syn = tcp4(peer, SELF, (1024, 80), (0xffff_ffff, 0), 0x02, 64240, b"");
    assert_eq!(node.take(millis(0), &ethernet(OWN, link, 0x0800, &syn)), None);
    let came = Segment {
        remote: from,
        control: TcpControl::Syn,
        seq_number: TcpSeqNumber(-1),
        ack_number: None,
        window_len: 64240,
    };
    assert_eq!(node.host.tcp_receive(other, &mut out), Err(Error::Empty));
    assert_eq!(node.host.tcp_peek(socket, &mut out), Ok((0, came)));
    assert_eq!(node.host.tcp_receive(socket, &mut out), Ok((0, came)));
    assert_eq!(node.host.tcp_peek(socket, &mut out), Err(Error::Empty));
    let acknowledges = Segment {
        seq_number: TcpSeqNumber(0x0102_0304),
        ack_number: Some(came.seq_number + 1),
        window_len: 1000,
        ..came
    };
    node.host.tcp_hold(socket, millis(5)).unwrap();
    node.host.tcp_send(socket, acknowledges, b"").unwrap();
    assert_eq!(node.sends(millis(4)), vec![]);
    assert_eq!(node.host.poll_at(millis(4)), Some(millis(5)));
    let sent = node.frames(millis(5));
    assert_eq!(sent.len(), 1);
    assert_eq!(sent[0][34..50], [0, 80, 4, 0, 1, 2, 3, 4, 0, 0, 0, 0, 0x50, 0x12, 3, 232]);
    node.host.tcp_send(socket, Segment { control: TcpControl::Psh, ..acknowledges }, b"hello").unwrap();
    let sent = node.frames(millis(5));
    assert_eq!((sent[0][47], &sent[0][54..59]), (0x18, b"hello".as_slice()));
    node.host.tcp_abort(socket).unwrap();
    let data = tcp4(peer, SELF, (1024, 80), (0, 0x0102_0305), 0x18, 64240, b"x");
    let reset = node.take(millis(5), &ethernet(OWN, link, 0x0800, &data)).unwrap();
    assert_eq!(reset[34..50], [0, 80, 4, 0, 1, 2, 3, 5, 0, 0, 0, 0, 0x50, 4, 0, 0]);
    assert_eq!(node.host.tcp_receive(socket, &mut out), Err(Error::Empty));
    assert_eq!(node.host.tcp_abort(9), Err(Error::NoSocket));
    assert_eq!(node.host.set_hop_limit(socket, 9), Ok(()));
    assert_eq!(node.host.hop_limit(socket), Ok(9));
}

/// smoltcp bounds a segment's window by so many of the device's frames as it takes at once, less the headers of IP and
/// TCP.
#[test]
fn windows_are_bounded_by_bursts() {
    let mut settings = Settings::new(HardwareAddress::Ip);
    settings.burst = Some(2);
    let mut node = Node::of(&settings, &[CIDR]);
    let socket = node.host.tcp_open(80.into(), None, Rooms::new(4, 256)).unwrap();
    for (window_len, sent) in [(2947, 2947_u16), (2948, 2948), (2949, 2948), (u16::MAX, 2948)] {
        let segment = Segment {
            remote: IpEndpoint::new(IpAddress::v4(192, 168, 69, 2), 9),
            control: TcpControl::None,
            seq_number: TcpSeqNumber(0),
            ack_number: None,
            window_len,
        };
        node.host.tcp_send(socket, segment, b"").unwrap();
        assert_eq!(node.frames(millis(0))[0][34..36], sent.to_be_bytes());
    }
}

#[test]
fn a_host_goes_to_another_thread() {
    let hosts: Vec<_> = (1..=4u8)
        .map(|last| {
            std::thread::spawn(move || {
                let settings = Settings::new(EthernetAddress([2, 0, 0, 0, 0, last]).into());
                let mut host = Host::new(&settings).unwrap();
                host.add_address(IpCidr::new(IpAddress::v4(10, 0, 0, last), 8)).unwrap();
                host
            })
        })
        .collect();
    for (place, host) in hosts.into_iter().enumerate() {
        let mut host = host.join().unwrap();
        let mut out = [0; FRAME_ROOM];
        let own = Ipv4Address::new(10, 0, 0, place as u8 + 1);
        let asked = arp(1, [2, 0, 0, 0, 0, 99], Ipv4Address::new(10, 0, 0, 99), [0; 6], own);
        let reply = host.receive(Instant::ZERO, &asked, &mut out).unwrap().unwrap();
        assert_eq!(reply[28..32], own.octets());
    }
}

/// Polls a client after a frame, and returns the frame that is sent, if one is, and what became of the lease.
fn polled(
    client: &mut Dhcp,
    node: &mut Node,
    now: Instant,
    frame: Option<&[u8]>,
) -> (Option<Vec<u8>>, Option<LeaseEvent>) {
    if let Some(frame) = frame {
        assert_eq!(node.take(now, frame), None);
    }
    let event = client.poll(&mut node.host, now).unwrap();
    let mut sent = node.frames(now);
    assert!(sent.len() < 2);
    (sent.pop(), event)
}

/// RFC 2131, 3.1, 3.2 and 4.4: a known address that is refused, then a lease, and its end; `docs/C.md`, An IPv4 address by DHCP.
#[test]
fn a_client_leases_an_address() {
    let mut node = Node::new(&[]);
    let now = Instant::from_secs(5);
    let mut client = Dhcp::new(&mut node.host, 42, Some(neighbor(7).0)).unwrap();
    client.set_probing(false);
    assert_eq!((client.poll_at(), client.lease()), (Some(Instant::ZERO), None));
    // RFC 2132, 3.14, 9.8; routes before the router, by RFC 3442.
    assert_eq!(client.set_parameters(&[0; 17]), Err(Error::TooLong));
    assert_eq!(client.set_host_name(&"a".repeat(64)), Err(Error::TooLong));
    client.set_parameters(&[42]).unwrap();
    client.set_host_name("fern").unwrap();
    let asked = polled(&mut client, &mut node, now, None).0.unwrap();
    assert_eq!((option(&asked, 53), option(&asked, 50)), (Some(&[REQUEST][..]), Some(&[192, 168, 69, 7][..])));
    assert_eq!((option(&asked, 55), option(&asked, 12)), (Some(&[1, 121, 3, 6, 26, 42][..]), Some(&b"fern"[..])));
    let refused = reply(&asked, NAK, Ipv4Address::UNSPECIFIED);
    let (asked, event) = polled(&mut client, &mut node, now, Some(&refused));
    let asked = asked.unwrap();
    assert_eq!((option(&asked, 53), event), (Some(&[DISCOVER][..]), None));
    // Two requests are three seconds apart (`docs/SERVICES.md`).
    assert_eq!(polled(&mut client, &mut node, now, Some(&reply(&asked, OFFER, LEASED))), (None, None));
    assert_eq!(client.poll_at(), Some(now + Duration::from_secs(3)));
    let now = now + Duration::from_secs(3);
    let asked = polled(&mut client, &mut node, now, None).0.unwrap();
    assert_eq!(option(&asked, 53), Some(&[REQUEST][..]));
    let ack = reply(&asked, ACK, LEASED);
    assert_eq!(polled(&mut client, &mut node, now, Some(&ack)), (None, Some(LeaseEvent::Configured)));
    let lease = client.lease().unwrap();
    assert_eq!((lease.address.to_string().as_str(), lease.server), ("192.168.69.50/24", SERVER));
    assert_eq!((lease.router, lease.expires_at), (Some(SELF), Some(now + Duration::from_secs(120))));
    assert_eq!(lease.dns_servers, [Some(neighbor(2).0), Some(neighbor(3).0), None]);
    let mut octets = [7; 9];
    assert_eq!((lease.mtu, client.option(54, &mut octets)), (None, Ok(4)));
    assert_eq!(octets, [192, 168, 69, 100, 7, 7, 7, 7, 7]);
    assert_eq!(client.option(6, &mut octets[..7]), Err(Error::NoRoom));
    assert_eq!(client.option(42, &mut octets), Err(Error::Empty));
    assert_eq!(node.host.address_at(0), None);
    client.apply(&mut node.host).unwrap();
    assert_eq!(node.host.address_at(0), Some(IpCidr::Ipv4(lease.address)));
    assert_eq!(node.host.route_at(0), Some(Route::new_ipv4_gateway(SELF)));
    assert_eq!(client.poll_at(), Some(now + Duration::from_secs(60)));
    assert_eq!(client.declined(), 0);
    client.reset();
    assert_eq!(polled(&mut client, &mut node, now + Duration::from_secs(1), None).1, Some(LeaseEvent::Deconfigured));
    client.apply(&mut node.host).unwrap();
    assert_eq!((node.host.address_at(0), node.host.route_at(0), client.lease()), (None, None, None));
    client.free(&mut node.host);
    assert_eq!(node.host.queues(0), Err(Error::NoSocket));
}

/// `iface.h`: why a client isn't made, isn't polled, and its lease isn't applied.
#[test]
fn a_client_is_refused_with_its_reason() {
    let mut bare = Host::new(&Settings::new(HardwareAddress::Ip)).unwrap();
    assert_eq!(Dhcp::new(&mut bare, 1, None).map(|_| ()), Err(Error::NotThere));
    let mut few = settings();
    few.sockets = 2;
    let mut node = Node::of(&few, &[]);
    let others = [7, 8].map(|port: u16| node.host.udp_open(port.into(), Rooms::new(1, 64)).unwrap());
    assert_eq!(Dhcp::new(&mut node.host, 1, None).map(|_| ()), Err(Error::TableFull));
    for socket in others {
        node.host.close(socket).unwrap();
    }
    let mut client = Dhcp::new(&mut node.host, 1, None).unwrap();
    assert_eq!(client.release(&mut node.host), Err(Error::Empty));
    client.set_probing(false);
    assert_eq!(client.poll(&mut bare, Instant::ZERO), Err(Error::NoSocket));
    let now = Instant::from_secs(5);
    let asked = polled(&mut client, &mut node, now, None).0.unwrap();
    let asked = polled(&mut client, &mut node, now, Some(&reply(&asked, OFFER, LEASED))).0.unwrap();
    assert_eq!(polled(&mut client, &mut node, now, Some(&reply(&asked, ACK, LEASED))).1, Some(LeaseEvent::Configured));
    for last in 1..9 {
        node.host.add_address(IpCidr::new(neighbor(last).0.into(), 24)).unwrap();
    }
    assert_eq!(client.apply(&mut node.host), Err(Error::TableFull));
    assert_eq!(node.host.address_at(7), Some(IpCidr::new(neighbor(8).0.into(), 24)));
    // Dropped, it leaves its socket open.
    drop(client);
    assert!(node.host.queues(0).is_ok());
}
