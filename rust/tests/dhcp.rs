//! Clients of DHCP, against a server's messages by octets: their forms are of RFC 2131, 2, and RFC 2132, what is sent when is
//! of RFC 2131, 3.1, 4.1 and 4.4. What events are told is of smoltcp's `dhcpv4`.
#![cfg(all(feature = "alloc", feature = "socket-dhcpv4"))]
mod common;

use common::dhcp::{
    ACK, CHADDR, CIADDR, DISCOVER, LEASED, NAK, OFFER, REQUEST, SERVER, SERVER_LINK, XID, option, reply,
};
use common::{OWN, arp};
use fumitorygate::Error;
use fumitorygate::iface::{Config, Interface, PollResult, SocketHandle, SocketSet};
use fumitorygate::phy::{Medium, MemoryDevice};
use fumitorygate::socket::{dhcpv4, udp};
use fumitorygate::time::{Duration, Instant};
use fumitorygate::wire::{EthernetAddress, HardwareAddress, IpCidr, Ipv4Address};

const SECOND: Duration = Duration::from_secs(1);

struct Link {
    device: MemoryDevice,
    iface: Interface,
    sockets: SocketSet<'static>,
    handle: SocketHandle,
}

impl Link {
    fn new() -> Link {
        let mut device = MemoryDevice::new(Medium::Ethernet, 1514);
        let mut config = Config::new(EthernetAddress(OWN).into());
        config.sockets = 2;
        let mut iface = Interface::new(config, &mut device, Instant::ZERO);
        let mut sockets = SocketSet::of(&iface);
        let handle = sockets.add(dhcpv4::Socket::new());
        assert_eq!(iface.poll_delay(Instant::ZERO, &sockets), Some(Duration::ZERO));
        let mut link = Link { device, iface, sockets, handle };
        assert_eq!(link.event(), Some(dhcpv4::Event::Deconfigured));
        link
    }

    fn event(&mut self) -> Option<dhcpv4::Event> {
        let socket = self.sockets.get_mut::<dhcpv4::Socket>(self.handle);
        let event = socket.poll();
        assert_eq!(socket.poll(), None);
        event
    }

    /// Polls at an instant, after a frame, and returns the frame that is sent, if one is.
    fn poll(&mut self, now: Instant, frame: Option<Vec<u8>>) -> Option<Vec<u8>> {
        self.device.incoming.extend(frame);
        self.iface.poll(now, &mut self.device, &mut self.sockets);
        let sent = self.device.sent.pop_front();
        assert_eq!(self.device.sent.pop_front(), None);
        sent
    }

    /// A message to all servers from no address, with the broadcast flag.
    fn broadcast(&mut self, now: Instant, frame: Option<Vec<u8>>, kind: u8) -> Vec<u8> {
        let sent = self.poll(now, frame).unwrap();
        assert_eq!(
            (&sent[..14], &sent[26..34]),
            (&[255, 255, 255, 255, 255, 255, 2, 0, 0, 0, 0, 1, 8, 0][..], &[0, 0, 0, 0, 255, 255, 255, 255][..])
        );
        assert_eq!((&sent[34..38], &sent[XID + 6..CIADDR + 4]), (&[0, 68, 0, 67][..], &[128, 0, 0, 0, 0, 0][..]));
        assert_eq!((&sent[CHADDR..CHADDR + 6], option(&sent, 53)), (&OWN[..], Some(&[kind][..])));
        sent
    }

    /// DISCOVER, OFFER, REQUEST, ACK (RFC 2131, 3.1).
    fn lease(&mut self, now: Instant) -> dhcpv4::Config {
        let asked = self.broadcast(now, None, DISCOVER);
        let asked = self.broadcast(now, Some(reply(&asked, OFFER, LEASED)), REQUEST);
        assert_eq!(option(&asked, 50), Some(&LEASED.octets()[..]));
        assert_eq!(option(&asked, 54), Some(&SERVER.octets()[..]));
        self.agree(now, &asked)
    }

    /// REQUEST of the address that it had, naming no server, and ACK (RFC 2131, 3.2, 4.3.2).
    fn lease_again(&mut self, now: Instant) -> dhcpv4::Config {
        let asked = self.broadcast(now, None, REQUEST);
        assert_eq!(option(&asked, 50), Some(&LEASED.octets()[..]));
        assert_eq!(option(&asked, 54), None);
        self.agree(now, &asked)
    }

    /// ACK.
    fn agree(&mut self, now: Instant, asked: &[u8]) -> dhcpv4::Config {
        assert_eq!(self.event(), None);
        assert_eq!(self.poll(now, Some(reply(asked, ACK, LEASED))), None);
        match self.event() {
            Some(dhcpv4::Event::Configured(config)) => config,
            other => panic!("{other:?}"),
        }
    }

    fn set_address(&mut self, config: &dhcpv4::Config) {
        let address = IpCidr::Ipv4(config.address);
        self.iface.update_ip_addrs(|list| list.push(address).unwrap());
    }
}

#[test]
fn a_lease_is_told_renewed_and_ends() {
    let mut link = Link::new();
    let begin = Instant::from_secs(5);
    let config = link.lease(begin);
    assert_eq!(config.server, dhcpv4::ServerInfo { address: SERVER, identifier: SERVER });
    assert_eq!(config.address.to_string(), "192.168.69.50/24");
    assert_eq!(config.router, Some(Ipv4Address::new(192, 168, 69, 1)));
    assert_eq!(config.dns_servers[..], [Ipv4Address::new(192, 168, 69, 2), Ipv4Address::new(192, 168, 69, 3)]);
    link.set_address(&config);
    // Half of the time later the server is asked, whose hardware address is asked for first (4.4.5).
    let half = begin + Duration::from_secs(60);
    assert_eq!(link.iface.poll_at(begin, &link.sockets), Some(half));
    assert_eq!(link.poll(half - Duration::from_micros(1), None), None);
    let request = link.poll(half, None).unwrap();
    assert_eq!((&request[12..14], &request[38..42]), (&[8, 6][..], &SERVER.octets()[..]));
    let asked = link.poll(half, Some(arp(2, SERVER_LINK, SERVER, OWN, LEASED))).unwrap();
    assert_eq!((&asked[..6], &asked[26..34]), (&SERVER_LINK[..], &[192, 168, 69, 50, 192, 168, 69, 100][..]));
    assert_eq!((&asked[CIADDR..CIADDR + 4], option(&asked, 53)), (&LEASED.octets()[..], Some(&[REQUEST][..])));
    assert_eq!((option(&asked, 50), option(&asked, 54)), (None, None));
    // The same values again are no event.
    assert_eq!(link.poll(half, Some(reply(&asked, ACK, LEASED))), None);
    assert_eq!(link.event(), None);
    // Without an answer it ends.
    let end = half + Duration::from_secs(120);
    let mut now = half;
    while now < end {
        assert_eq!(link.event(), None);
        now = link.iface.poll_at(now, &link.sockets).unwrap().max(now + Duration::from_micros(1));
        link.iface.poll(now, &mut link.device, &mut link.sockets);
        link.device.sent.clear();
    }
    assert_eq!(now, end);
    assert_eq!(link.event(), Some(dhcpv4::Event::Deconfigured));
}

#[test]
fn an_event_is_a_change() {
    let mut link = Link::new();
    let now = Instant::from_secs(5);
    let asked = link.broadcast(now, None, DISCOVER);
    let asked = link.broadcast(now, Some(reply(&asked, OFFER, LEASED)), REQUEST);
    link.device.incoming.push_back(reply(&asked, ACK, LEASED));
    assert_eq!(link.iface.poll(now, &mut link.device, &mut link.sockets), PollResult::SocketStateChanged);
    assert_eq!(link.iface.poll(now, &mut link.device, &mut link.sockets), PollResult::None);
    let end = now + Duration::from_secs(120);
    while link.iface.poll_at(now, &link.sockets).unwrap() < end {
        let at = link.iface.poll_at(now, &link.sockets).unwrap();
        link.iface.poll(at, &mut link.device, &mut link.sockets);
    }
    // Its end comes without a frame.
    assert_eq!(link.iface.poll(end, &mut link.device, &mut link.sockets), PollResult::SocketStateChanged);
    // What there is now is told, and nothing of what was before.
    assert_eq!(link.event(), Some(dhcpv4::Event::Deconfigured));
}

#[test]
fn a_refusal_and_a_reset_begin_anew() {
    let mut link = Link::new();
    let now = Instant::from_secs(5);
    let asked = link.broadcast(now, None, DISCOVER);
    let asked = link.broadcast(now, Some(reply(&asked, OFFER, LEASED)), REQUEST);
    assert_eq!(link.poll(now, Some(reply(&asked, NAK, Ipv4Address::UNSPECIFIED))), None);
    assert_eq!(link.event(), None);
    let later = link.iface.poll_at(now, &link.sockets).unwrap();
    assert!(later >= now + Duration::from_secs(3) && later <= now + Duration::from_secs(5), "4.1: {later}");
    let config = link.lease(later);
    link.set_address(&config);
    link.sockets.get_mut::<dhcpv4::Socket>(link.handle).reset();
    assert_eq!(link.event(), Some(dhcpv4::Event::Deconfigured));
    let next = link.iface.poll_at(later, &link.sockets).unwrap().max(later + SECOND);
    assert_eq!(link.lease_again(next.max(later + Duration::from_secs(5))).address, config.address);
}

/// smoltcp's documentation of `set_max_lease_duration`: a lease is capped, if the server gave it for longer.
#[test]
fn a_lease_is_given_up_after_the_longest_time() {
    let mut link = Link::new();
    let now = Instant::from_secs(5);
    let longest = Some(Duration::from_secs(10));
    link.sockets.get_mut::<dhcpv4::Socket>(link.handle).set_max_lease_duration(longest);
    assert_eq!(link.sockets.get::<dhcpv4::Socket>(link.handle).max_lease_duration(), longest);
    let config = link.lease(now);
    assert_eq!(link.iface.poll_at(now, &link.sockets), Some(Instant::from_secs(15)));
    link.poll(Instant::from_micros(14_999_999), None);
    assert_eq!(link.event(), None);
    link.poll(Instant::from_secs(15), None);
    assert_eq!(link.event(), Some(dhcpv4::Event::Deconfigured));
    link.sockets.get_mut::<dhcpv4::Socket>(link.handle).set_max_lease_duration(None);
    assert_eq!(link.lease_again(Instant::from_secs(20)).address, config.address);
    link.poll(Instant::from_secs(40), None);
    assert_eq!(link.event(), None);
}

/// Frames as slices do the same, without a device.
#[test]
fn frames_as_slices() {
    let mut link = Link::new();
    let now = Instant::from_secs(5);
    let asked = link.iface.next_frame(now, &mut link.sockets).unwrap().to_vec();
    assert_eq!(option(&asked, 53), Some(&[DISCOVER][..]));
    assert_eq!(link.iface.receive_frame(now, &reply(&asked, OFFER, LEASED), &mut link.sockets), None);
    let asked = link.iface.next_frame(now, &mut link.sockets).unwrap().to_vec();
    assert_eq!(option(&asked, 53), Some(&[REQUEST][..]));
    assert_eq!(link.iface.receive_frame(now, &reply(&asked, ACK, LEASED), &mut link.sockets), None);
    assert!(matches!(link.event(), Some(dhcpv4::Event::Configured(_))));
}

#[test]
fn it_needs_hardware_addresses_and_a_place() {
    let mut device = MemoryDevice::new(Medium::Ip, 1500);
    let iface = Interface::new(Config::new(HardwareAddress::Ip), &mut device, Instant::ZERO);
    let mut sockets = SocketSet::of(&iface);
    assert_eq!(sockets.try_add(dhcpv4::Socket::new()).unwrap_err().error, Error::NotThere);
    let mut link = Link::new();
    let room = udp::PacketBuffer::with_capacity(1, 64);
    let mut socket = udp::Socket::new(room, room);
    socket.bind(7).unwrap();
    // It has both places of the configuration: its messages never lack one.
    let refused = link.sockets.try_add(socket).unwrap_err();
    assert_eq!(refused.error, Error::TableFull);
    assert_eq!(link.sockets.try_add(dhcpv4::Socket::new()).unwrap_err().error, Error::TableFull);
    link.broadcast(Instant::from_secs(5), None, DISCOVER);
    let client = link.sockets.remove(link.handle);
    let other = link.sockets.add(refused.socket);
    assert_eq!(link.sockets.try_add(client).unwrap_err().error, Error::TableFull);
    link.sockets.remove(other);
    link.sockets.add(dhcpv4::Socket::new());
}

/// Out of a set there is no lease; in one again it begins anew.
#[test]
fn it_goes_from_set_to_set() {
    let mut link = Link::new();
    let now = Instant::from_secs(5);
    let config = link.lease(now);
    let socket = link.sockets.remove(link.handle);
    let room = udp::PacketBuffer::with_capacity(1, 64);
    for port in [68, 69] {
        let mut other = udp::Socket::new(room, room);
        other.bind(port).unwrap();
        let handle = link.sockets.add(other);
        link.sockets.remove(handle);
    }
    link.handle = link.sockets.add(socket);
    assert_eq!(link.event(), Some(dhcpv4::Event::Deconfigured));
    assert_eq!(link.lease(now + Duration::from_secs(9)).address, config.address);
}

/// Two clients of one seed have numbers of their own.
#[test]
fn each_client_has_its_numbers() {
    let number = |count: usize| {
        let mut device = MemoryDevice::new(Medium::Ethernet, 1514);
        let mut iface = Interface::new(Config::new(EthernetAddress(OWN).into()), &mut device, Instant::ZERO);
        let mut sockets = SocketSet::of(&iface);
        for _ in 0..count {
            let other = sockets.add(dhcpv4::Socket::new());
            sockets.remove(other);
        }
        sockets.add(dhcpv4::Socket::new());
        iface.poll(Instant::ZERO, &mut device, &mut sockets);
        device.sent[0][XID..XID + 4].to_vec()
    };
    assert_eq!(number(0), number(0));
    assert_ne!(number(0), number(1));
}

#[cfg(feature = "async")]
#[test]
fn an_event_wakes() {
    use std::sync::Arc;
    use std::sync::atomic::{AtomicUsize, Ordering::SeqCst};
    struct Count(AtomicUsize);
    impl std::task::Wake for Count {
        fn wake(self: Arc<Self>) {
            self.0.fetch_add(1, SeqCst);
        }
    }
    let mut link = Link::new();
    let count = Arc::new(Count(AtomicUsize::new(0)));
    link.sockets.get_mut::<dhcpv4::Socket>(link.handle).register_waker(&count.clone().into());
    let now = Instant::from_secs(5);
    let asked = link.broadcast(now, None, DISCOVER);
    let asked = link.broadcast(now, Some(reply(&asked, OFFER, LEASED)), REQUEST);
    assert_eq!(count.0.load(SeqCst), 0);
    assert_eq!(link.poll(now, Some(reply(&asked, ACK, LEASED))), None);
    assert_eq!(count.0.load(SeqCst), 1);
}
