//! What a program of smoltcp may do with the types that are there, in its words: what comes of it is what smoltcp's
//! documentation says.
#![cfg(feature = "alloc")]
extern crate alloc;

use alloc::vec;
use fumitorygate::Secrets;
use fumitorygate::iface::{Config, Interface, PollResult, Routes, SocketSet, SocketStorage};
use fumitorygate::phy::{Device, DeviceCapabilities, Loopback, Medium, PacketMeta, RxToken, TxToken};
use fumitorygate::socket::{icmp, raw, tcp, udp};
use fumitorygate::time::{Duration, Instant};
use fumitorygate::wire::*;

const OWN: IpAddress = IpAddress::v4(127, 0, 0, 1);

fn loopback() -> (Loopback, Interface) {
    let mut device = Loopback::new(Medium::Ip);
    let mut config = Config::new(HardwareAddress::Ip);
    let secrets = Secrets { number_key: [7; 32], table_key: [8, 9] };
    config.tcp.secrets = if cfg!(feature = "std") { None } else { Some(secrets) };
    let mut iface = Interface::new(config, &mut device, Instant::ZERO);
    iface.update_ip_addrs(|addrs| addrs.push(IpCidr::new(OWN, 8)).unwrap());
    (device, iface)
}

fn udp_socket() -> udp::Socket<'static> {
    let buffer = || udp::PacketBuffer::new(vec![udp::PacketMetadata::EMPTY; 2], vec![0; 64]);
    udp::Socket::new(buffer(), buffer())
}

/// smoltcp's documentation of `Duration` and `Instant`.
#[test]
fn spans_and_instants_are_reckoned_with() {
    let mut span = Duration::from_millis(1500);
    assert_eq!((span * 2, span / 3), (Duration::from_secs(3), Duration::from_millis(500)));
    assert_eq!((span << 1, span >> 1), (Duration::from_secs(3), Duration::from_millis(750)));
    assert_eq!((span.secs(), span.millis(), span.micros()), (1, 500, 500_000));
    span += Duration::from_millis(500);
    span *= 3;
    span -= Duration::from_secs(2);
    span /= 4;
    assert_eq!(span, Duration::from_secs(1));
    span <<= 3;
    span >>= 2;
    assert_eq!(span, Duration::from_secs(2));
    let mut instant = Instant::from_secs(1) + span;
    instant -= Duration::from_secs(2);
    instant += Duration::from_secs(1);
    assert_eq!(instant - Instant::from_secs(1), Duration::from_secs(1));
}

/// `API.md`: at the ends of the range the result is the end.
#[test]
fn spans_end_where_their_range_does() {
    assert_eq!((Duration::MAX * 2, Duration::MAX + Duration::MAX), (Duration::MAX, Duration::MAX));
    assert_eq!((Duration::from_micros(1) << 63).total_micros(), 1 << 63);
    assert_eq!((Duration::from_micros(1) << 64, Duration::from_micros(3) << 63), (Duration::MAX, Duration::MAX));
    assert_eq!((Duration::ZERO << 64, Duration::MAX >> 64), (Duration::ZERO, Duration::ZERO));
}

/// smoltcp's documentation: an `Instant` of the system's time is the time since 1970, and one of `std`'s the time since.
#[cfg(feature = "std")]
#[test]
fn instants_are_of_the_system() {
    use std::time::{Duration as Span, SystemTime, UNIX_EPOCH};
    let then = UNIX_EPOCH + Span::from_micros(1_500_000_000_000_001);
    assert_eq!(Instant::from(then), Instant::from_micros(1_500_000_000_000_001i64));
    assert_eq!(SystemTime::from(Instant::from_micros(1_500_000_000_000_001i64)), then);
    assert_eq!(Instant::from(UNIX_EPOCH - Span::from_secs(1)), Instant::ZERO);
    let start = std::time::Instant::now() - Span::from_secs(5);
    assert!(Instant::from(start) >= Instant::from_secs(5) && Instant::from(start) < Instant::from_secs(65));
    let (before, now) = (Instant::from(SystemTime::now()), Instant::now());
    assert!(now - before < Duration::from_secs(60) && Instant::now() >= now);
}

/// smoltcp's documentation of `SocketSet`: a set over a vector grows, one over a slice doesn't.
#[test]
fn a_set_is_over_storage() {
    let (mut device, mut iface) = loopback();
    let mut storage: [SocketStorage; 2] = Default::default();
    let mut sockets = SocketSet::new(&mut storage[..]);
    let first = sockets.add(udp_socket());
    let second = sockets.add(udp_socket());
    assert!(sockets.try_add(udp_socket()).is_err());
    sockets.remove(first);
    let third = sockets.add(udp_socket());
    assert_eq!((third, sockets.iter().count()), (first, 2));
    iface.poll(Instant::ZERO, &mut device, &mut sockets);
    assert!(!sockets.get::<udp::Socket>(second).is_open());

    let mut places = [SocketStorage::EMPTY];
    let mut fixed = SocketSet::new(&mut places);
    fixed.add(udp_socket());
    let mut owned = SocketSet::new(vec![SocketStorage::EMPTY]);
    owned.add(udp_socket());
    owned.add(udp_socket());
    assert_eq!((fixed.iter_mut().count(), owned.iter().count()), (1, 2));
}

#[test]
#[should_panic = "the table is full"]
fn a_full_slice_takes_no_socket() {
    let mut sockets = SocketSet::new(&mut [][..]);
    sockets.add(udp_socket());
}

/// smoltcp's sockets have queues of their own: what is sent before the first poll goes with it.
#[test]
fn what_is_sent_before_the_first_poll_goes_with_it() {
    let (mut device, mut iface) = loopback();
    let mut sockets = SocketSet::new(vec![]);
    let handle = sockets.add(udp_socket());
    let socket = sockets.get_mut::<udp::Socket>(handle);
    assert_eq!(socket.send_slice(b"unbound", (OWN, 7)), Err(udp::SendError::Unaddressable));
    socket.bind(7).unwrap();
    assert!(socket.can_send());
    socket.send_slice(b"one", (OWN, 7)).unwrap();
    socket.send(3, (OWN, 7)).unwrap().copy_from_slice(b"two");
    assert!(!socket.can_send() && socket.send_queue() == 6);
    assert_eq!(socket.send_slice(b"three", (OWN, 7)), Err(udp::SendError::BufferFull));
    assert_eq!(iface.poll_at(Instant::ZERO, &sockets), Some(Instant::ZERO));
    while iface.poll(Instant::ZERO, &mut device, &mut sockets) != PollResult::None {}
    let socket = sockets.get_mut::<udp::Socket>(handle);
    assert_eq!(socket.recv().unwrap().0, b"one");
    assert_eq!(socket.recv().unwrap().0, b"two");
    assert_eq!((socket.send_queue(), socket.recv().err()), (0, Some(udp::RecvError::Exhausted)));
}

/// smoltcp's documentation of `Socket::close`: what waits is dropped.
#[test]
fn what_waits_in_a_closed_socket_is_dropped() {
    let (mut device, mut iface) = loopback();
    let mut sockets = SocketSet::new(vec![]);
    let handle = sockets.add(udp_socket());
    let socket = sockets.get_mut::<udp::Socket>(handle);
    socket.bind(7).unwrap();
    socket.send_slice(b"one", (OWN, 7)).unwrap();
    socket.close();
    socket.bind(7).unwrap();
    iface.poll(Instant::ZERO, &mut device, &mut sockets);
    iface.poll(Instant::ZERO, &mut device, &mut sockets);
    assert!(!sockets.get::<udp::Socket>(handle).can_recv());
}

/// `SocketSet::remove`: what waits is dropped, and so is what was lent.
#[test]
fn what_was_lent_is_dropped_with_its_place() {
    let (mut device, mut iface) = loopback();
    let mut sockets = SocketSet::new(vec![]);
    let mut socket = udp_socket();
    socket.bind(7).unwrap();
    let handle = sockets.add(socket);
    iface.poll(Instant::ZERO, &mut device, &mut sockets);
    sockets.get_mut::<udp::Socket>(handle).send(1, (OWN, 7)).unwrap();
    let socket = sockets.remove(handle);
    let handle = sockets.add(socket);
    assert_eq!(sockets.get::<udp::Socket>(handle).send_queue(), 0);
    iface.poll(Instant::ZERO, &mut device, &mut sockets);
    assert!(!sockets.get::<udp::Socket>(handle).can_recv());
}

/// As the examples of smoltcp have it: a set that no interface knows, a socket that listens, and one that connects before
/// the first poll.
#[test]
fn a_connection_begins_before_the_first_poll() {
    let (mut device, mut iface) = loopback();
    let mut sockets = SocketSet::new(vec![]);
    let buffer = || tcp::SocketBuffer::new(vec![0; 64]);
    let server = sockets.add(tcp::Socket::new(buffer(), buffer()));
    let client = sockets.add(tcp::Socket::new(buffer(), buffer()));
    sockets.get_mut::<tcp::Socket>(server).listen(7).unwrap();
    sockets.get_mut::<tcp::Socket>(client).connect(iface.context(), (OWN, 7), 49152).unwrap();
    while iface.poll(Instant::ZERO, &mut device, &mut sockets) != PollResult::None {}
    assert_eq!(sockets.get::<tcp::Socket>(server).state(), tcp::State::Established);
    assert_eq!(sockets.get::<tcp::Socket>(client).state(), tcp::State::Established);
}

#[test]
#[should_panic = "opening socket #8: the table is full"]
fn more_sockets_than_may_be_open_stop_the_first_poll() {
    let (mut device, mut iface) = loopback();
    let mut sockets = SocketSet::new(vec![]);
    for port in 1..10 {
        let handle = sockets.add(udp_socket());
        sockets.get_mut::<udp::Socket>(handle).bind(port).unwrap();
    }
    iface.poll(Instant::ZERO, &mut device, &mut sockets);
}

#[test]
#[should_panic = "the sockets are another interface's"]
fn a_set_stays_with_its_interface() {
    let ((mut device, mut one), (_, mut other)) = (loopback(), loopback());
    let mut sockets = SocketSet::new(vec![]);
    one.poll(Instant::ZERO, &mut device, &mut sockets);
    other.poll(Instant::ZERO, &mut device, &mut sockets);
}

/// The documentation of `heapless::Vec`, which smoltcp lends.
#[test]
fn lists_are_changed() {
    let (_, mut iface) = loopback();
    let [a, b, c]: [IpCidr; 3] = ["10.0.0.1/8", "10.0.0.2/8", "10.0.0.3/8"].map(|text| text.parse().unwrap());
    iface.update_ip_addrs(|addrs| {
        addrs.clear();
        addrs.extend_from_slice(&[a, c]).unwrap();
        addrs.insert(1, b).unwrap();
        assert_eq!(addrs[..], [a, b, c]);
        assert_eq!((addrs.swap_remove(0), &addrs[..]), (a, &[c, b][..]));
        addrs.insert(2, a).unwrap();
        addrs.retain_mut(|cidr| *cidr != b);
        assert_eq!(addrs.as_slice(), [c, a]);
        addrs.truncate(1);
        addrs.truncate(5);
        assert_eq!((addrs.len(), addrs.capacity(), addrs.is_full()), (1, 8, false));
        addrs.extend([a; 7]);
        assert_eq!((addrs.is_full(), addrs.insert(0, b)), (true, Err(b)));
        assert_eq!(addrs.extend_from_slice(&[b]), Err(()));
        addrs.truncate(2);
        for cidr in addrs.iter_mut() {
            *cidr = IpCidr::new(cidr.address(), 16);
        }
    });
    let texts: Vec<String> = (&iface.ip_addrs()).into_iter().map(ToString::to_string).collect();
    assert_eq!(texts, ["10.0.0.3/16", "10.0.0.1/16"]);
    let mut count = 0;
    for cidr in iface.ip_addrs() {
        assert_eq!(cidr.prefix_len(), 16);
        count += 1;
    }
    assert_eq!(count, 2);
}

/// A function of a program's that gets the routes to be changed, as smoltcp lends them.
#[test]
fn routes_are_lent() {
    fn set_up(routes: &mut Routes) {
        routes.add_default_ipv4_route(Ipv4Address::new(127, 0, 0, 2)).unwrap();
        routes.update(|routes| routes[0].expires_at = Some(Instant::from_secs(9)));
    }
    let (_, mut iface) = loopback();
    set_up(iface.routes_mut());
    let routes = iface.routes_mut();
    routes.add_default_ipv6_route("fe80::2".parse().unwrap()).unwrap();
    let route = routes.get_default_ipv4_route().unwrap();
    assert_eq!((route.via_router, route.expires_at), (IpAddress::v4(127, 0, 0, 2), Some(Instant::from_secs(9))));
    assert!(iface.routes().get_default_ipv6_route().is_some());
}

/// smoltcp's documentation: the MTU is the longest frame, with the header of Ethernet.
#[test]
fn a_device_tells_the_longest_packet() {
    let mut caps = DeviceCapabilities::default();
    caps.max_transmission_unit = 1514;
    assert_eq!(caps.ip_mtu(), 1500);
    caps.medium = Medium::Ip;
    assert_eq!(caps.ip_mtu(), 1514);
}

/// What a context tells is what its interface does.
#[test]
fn a_context_tells_of_its_interface() {
    let (mut device, mut iface) = loopback();
    iface.update_ip_addrs(|addrs| addrs.push("fe80::1:2/64".parse().unwrap()).unwrap());
    let mut sockets = SocketSet::new(vec![]);
    iface.poll(Instant::from_secs(5), &mut device, &mut sockets);
    iface.poll_maintenance(Instant::from_secs(5));
    let cx = iface.context();
    assert_eq!((cx.now(), cx.ip_mtu()), (Instant::from_secs(5), 1514));
    assert_eq!(cx.ipv4_addr(), Some(Ipv4Address::new(127, 0, 0, 1)));
    assert_eq!(cx.ipv6_addr(), Some("fe80::1:2".parse().unwrap()));
    assert!(cx.has_solicited_node("ff02::1:ff01:2".parse().unwrap()));
    assert!(!cx.has_solicited_node("ff02::1:ff01:3".parse().unwrap()));
    assert_eq!(cx.get_source_address(&OWN), Some(OWN));
}

/// RFC 4291, 2.7 and 2.7.1, with its example; RFC 6724, 3.1; RFC 950: a mask's ones stand before its zeros.
#[test]
fn addresses_tell_of_themselves() {
    let address: Ipv6Address = "4037::01:800:200e:8c6c".parse().unwrap();
    assert_eq!(address.solicited_node(), "ff02::1:ff0e:8c6c".parse::<Ipv6Address>().unwrap());
    assert!(address.solicited_node().is_solicited_node_multicast() && !address.is_solicited_node_multicast());
    let scope = |text: &str| text.parse::<Ipv6Address>().unwrap().x_multicast_scope();
    assert_eq!((scope("ff02::1"), scope("ff0e::1")), (Ipv6MulticastScope::LinkLocal, Ipv6MulticastScope::Global));
    assert_eq!((scope("fe80::1"), scope("fd00::1")), (Ipv6MulticastScope::LinkLocal, Ipv6MulticastScope::Global));
    assert_eq!((scope("2001:db8::1"), scope("::1")), (Ipv6MulticastScope::Global, Ipv6MulticastScope::Unknown));
    assert_eq!(Ipv4Address::new(255, 255, 240, 0).prefix_len(), Some(20));
    assert_eq!(Ipv4Address::new(255, 0, 255, 0).prefix_len(), None);
    assert_eq!("ffff:ffff::".parse::<Ipv6Address>().unwrap().prefix_len(), Some(32));
    assert!(Ipv4Address::new(10, 0, 0, 1).x_is_unicast() && !Ipv4Address::BROADCAST.x_is_unicast());
    assert_eq!("2001:db8::1".parse::<Ipv6Address>().unwrap().mask(16)[..3], [0x20, 0x01, 0]);
}

/// A device of a program's, whose tokens have all that smoltcp's traits have.
struct Nothing;

impl RxToken for Nothing {
    fn consume<R, F: FnOnce(&[u8]) -> R>(self, f: F) -> R {
        f(&[])
    }

    fn meta(&self) -> PacketMeta {
        PacketMeta::default()
    }
}

impl TxToken for Nothing {
    fn consume<R, F: FnOnce(&mut [u8]) -> R>(self, len: usize, f: F) -> R {
        f(&mut vec![0; len])
    }

    fn set_meta(&mut self, _meta: PacketMeta) {}
}

impl Device for Nothing {
    type RxToken<'a> = Nothing;
    type TxToken<'a> = Nothing;

    fn receive(&mut self, _timestamp: Instant) -> Option<(Nothing, Nothing)> {
        None
    }

    fn transmit(&mut self, _timestamp: Instant) -> Option<Nothing> {
        Some(Nothing)
    }

    fn capabilities(&self) -> DeviceCapabilities {
        DeviceCapabilities::default()
    }
}

/// smoltcp's documentation of `Interface::new`.
#[test]
#[should_panic = "making an interface"]
fn a_group_makes_no_interface() {
    let group = EthernetAddress([1, 0, 0x5e, 0, 0, 1]);
    let _ = Interface::new(Config::new(group.into()), &mut Nothing, Instant::ZERO);
}

/// Sockets of other kinds, as programs make them.
#[test]
fn sockets_are_made_of_empty_buffers() {
    let (mut device, mut iface) = loopback();
    let mut sockets = SocketSet::new(vec![]);
    let rx = raw::PacketBuffer::new(vec![raw::PacketMetadata::EMPTY; 2], vec![0; 512]);
    let tx = raw::PacketBuffer::new(vec![], vec![]);
    sockets.add(raw::Socket::new(Some(IpVersion::Ipv4), Some(IpProtocol::Igmp), rx, tx));
    let (mut meta, mut data) = ([icmp::PacketMetadata::EMPTY; 1], [0; 64]);
    let rx = icmp::PacketBuffer::new(&mut meta[..], &mut data[..]);
    let handle = sockets.add(icmp::Socket::new(rx, icmp::PacketBuffer::new(vec![], vec![])));
    sockets.get_mut::<icmp::Socket>(handle).bind(icmp::Endpoint::Ident(0x22b)).unwrap();
    iface.poll(Instant::ZERO, &mut device, &mut sockets);
    assert!(sockets.get::<icmp::Socket>(handle).is_open());
}
