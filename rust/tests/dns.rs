//! Clients of DNS, against a server's answers by octets: their forms are of RFC 1035, 4, and RFC 3596, 2; which answers count is of
//! RFC 5452, 9.1. What calls return is of smoltcp's `dns`.
mod common;

use common::udp4;
use fumitorygate::time::{Duration, Instant};
use fumitorygate::wire::{DnsQueryType, IpAddress, Ipv4Address};
use fumitorygate::{Dns, DnsFailure, DnsQuery, DnsResult, Error, FRAME_ROOM, Host, Settings};

const OWN: Ipv4Address = Ipv4Address::new(192, 168, 69, 1);
const SERVER: Ipv4Address = Ipv4Address::new(192, 168, 69, 100);
const KEY: [u64; 2] = [0x0706_0504_0302_0100, 0x0f0e_0d0c_0b0a_0908];

/// Where in a packet of IPv4 the ports, the message and its question are.
const PORTS: usize = 20;
const MESSAGE: usize = 28;
const QUESTION: usize = 40;

/// www.example.com, its IPv4 addresses; and its address 192.0.2.1.
const WWW: &[u8] = b"\x03www\x07example\x03com\x00\x00\x01\x00\x01";
const RECORD: &[u8] = b"\xc0\x0c\x00\x01\x00\x01\x00\x00\x01\x2c\x00\x04\xc0\x00\x02\x01";

/// What a server answers to a query that was sent, in a packet of IPv4.
fn answer(sent: &[u8], code: u8, records: &[&[u8]]) -> Vec<u8> {
    let mut message = sent[MESSAGE..].to_vec();
    (message[2], message[3], message[7]) = (0x81, 0x80 | code, records.len() as u8);
    records.iter().for_each(|record| message.extend_from_slice(record));
    let port = u16::from_be_bytes([sent[PORTS], sent[PORTS + 1]]);
    udp4(SERVER, OWN, (53, port), &message)
}

fn wants_query(sent: &[u8], question: &[u8]) {
    assert_eq!((sent[9], &sent[12..20]), (17, &[192, 168, 69, 1, 192, 168, 69, 100][..]));
    assert_eq!((sent[PORTS] >= 0xc0, &sent[PORTS + 2..PORTS + 4]), (true, &[0, 53][..]));
    assert_eq!(sent[MESSAGE + 2..QUESTION], [1, 0, 0, 1, 0, 0, 0, 0, 0, 0]);
    assert_eq!(&sent[QUESTION..], question);
}

/// A host on a link without hardware addresses, and a client for two queries.
struct Link {
    host: Host,
    names: Dns,
}

impl Link {
    fn new() -> Link {
        let mut settings = Settings::new(fumitorygate::wire::HardwareAddress::Ip);
        settings.frame_len = 1500;
        let mut host = Host::new(&settings).unwrap();
        host.add_address("192.168.69.1/24".parse().unwrap()).unwrap();
        Link { host, names: Dns::new(2, KEY, &[SERVER.into()]).unwrap() }
    }

    fn start(&mut self, name: &str, query_type: DnsQueryType) -> DnsQuery {
        self.names.start(&mut self.host, Instant::ZERO, name, query_type).unwrap()
    }

    fn poll(&mut self, now: Instant) -> Option<Vec<u8>> {
        let mut out = [0; FRAME_ROOM];
        self.names.poll(&mut self.host, now);
        self.host.next(now, &mut out).unwrap().map(<[u8]>::to_vec)
    }

    fn receive(&mut self, frame: &[u8]) {
        let mut out = [0; FRAME_ROOM];
        assert_eq!(self.host.receive(Instant::ZERO, frame, &mut out).unwrap(), None);
        self.names.poll(&mut self.host, Instant::ZERO);
    }
}

#[test]
fn addresses_are_found() {
    let mut link = Link::new();
    let query = link.start("www.example.com", DnsQueryType::A);
    assert_eq!(link.names.poll_at(), Some(Instant::ZERO));
    let sent = link.poll(Instant::ZERO).unwrap();
    wants_query(&sent, WWW);
    assert_eq!(link.names.result(query), Ok(DnsResult::Pending));
    assert_eq!(link.names.poll_at(), Some(Instant::ZERO + Duration::from_secs(2)));
    let mut forged = answer(&sent, 0, &[RECORD]);
    forged = udp4(SERVER, OWN, (54, u16::from_be_bytes([sent[PORTS], sent[PORTS + 1]])), &forged[MESSAGE..]);
    link.receive(&forged);
    assert_eq!(link.names.result(query), Ok(DnsResult::Pending));
    link.receive(&answer(&sent, 0, &[RECORD, b"\xc0\x0c\x00\x01\x00\x01\x00\x00\x01\x2c\x00\x04\xc0\x00\x02\x02"]));
    let found = [Some(IpAddress::v4(192, 0, 2, 1)), Some(IpAddress::v4(192, 0, 2, 2)), None, None];
    assert_eq!(link.names.result(query), Ok(DnsResult::Addresses(found)));
    assert_eq!(link.names.poll_at(), None);
    link.names.cancel(&mut link.host, query).unwrap();
    assert_eq!(link.names.result(query), Err(Error::NotThere));
    assert_eq!(link.names.cancel(&mut link.host, query), Err(Error::NotThere));
}

#[test]
fn failures_are_told() {
    for (code, why) in [(3, DnsFailure::NoSuchName), (2, DnsFailure::ServerFailure), (0, DnsFailure::NoAddress)] {
        let mut link = Link::new();
        let query = link.start("www.example.com.", DnsQueryType::A);
        let sent = link.poll(Instant::ZERO).unwrap();
        link.receive(&answer(&sent, code, &[]));
        assert_eq!(link.names.result(query), Ok(DnsResult::Failed(why)));
    }
    let mut link = Link::new();
    let query = link.start("www.example.com", DnsQueryType::A);
    assert!(link.poll(Instant::from_secs(9)).is_some());
    assert_eq!(link.poll(Instant::from_secs(10)), None);
    assert_eq!(link.names.result(query), Ok(DnsResult::Failed(DnsFailure::TimedOut)));
}

#[test]
fn refusals() {
    let mut link = Link::new();
    let long = ["a".repeat(63), "a".repeat(63), "a".repeat(63), "a".repeat(62)].join(".");
    for name in ["", ".", "a..b", &"a".repeat(64), &long] {
        let refused = link.names.start(&mut link.host, Instant::ZERO, name, DnsQueryType::A);
        assert_eq!(refused, Err(Error::BadName), "{name}");
    }
    link.start(&long[1..], DnsQueryType::A);
    link.start("a", DnsQueryType::Aaaa);
    assert_eq!(link.names.start(&mut link.host, Instant::ZERO, "a", DnsQueryType::A), Err(Error::TableFull));
    link.names.set_servers(&[]).unwrap();
    assert_eq!(link.names.start(&mut link.host, Instant::ZERO, "a", DnsQueryType::A), Err(Error::NoServer));
    assert_eq!(link.names.set_servers(&[SERVER.into(); 4]), Err(Error::TableFull));
    assert_eq!(Dns::new(1, KEY, &[SERVER.into(); 4]).unwrap_err(), Error::TableFull);
    link.names.free(&mut link.host);
}

#[cfg(all(feature = "alloc", feature = "socket-dns"))]
mod socket {
    use super::*;
    use fumitorygate::iface::{Config, Interface, PollResult, SocketHandle, SocketSet};
    use fumitorygate::phy::{Medium, MemoryDevice};
    use fumitorygate::socket::dns::{self, GetQueryResultError, QueryHandle, StartQueryError};
    use fumitorygate::socket::udp;
    use fumitorygate::wire::HardwareAddress;

    struct Set {
        device: MemoryDevice,
        iface: Interface,
        sockets: SocketSet<'static>,
        handle: SocketHandle,
    }

    impl Set {
        fn new(queries: Vec<Option<dns::DnsQuery>>) -> Set {
            let mut device = MemoryDevice::new(Medium::Ip, 1500);
            let mut config = Config::new(HardwareAddress::Ip);
            config.sockets = 2;
            let mut iface = Interface::new(config, &mut device, Instant::ZERO);
            iface.update_ip_addrs(|list| list.push("192.168.69.1/24".parse().unwrap()).unwrap());
            let mut sockets = SocketSet::of(&iface);
            let handle = sockets.add(dns::Socket::new(&[SERVER.into()], queries));
            Set { device, iface, sockets, handle }
        }

        fn socket(&mut self) -> &mut dns::Socket<'static> {
            self.sockets.get_mut(self.handle)
        }

        fn start(&mut self, name: &str) -> Result<QueryHandle, StartQueryError> {
            let socket = self.sockets.get_mut::<dns::Socket>(self.handle);
            socket.start_query(self.iface.context(), name, DnsQueryType::A)
        }

        fn poll(&mut self, now: Instant, frame: Option<Vec<u8>>) -> PollResult {
            self.device.incoming.extend(frame);
            self.iface.poll(now, &mut self.device, &mut self.sockets)
        }

        fn sent(&mut self) -> Vec<u8> {
            self.device.sent.pop_front().unwrap()
        }
    }

    #[test]
    fn a_query_is_answered() {
        let mut set = Set::new(vec![]);
        assert_eq!(set.iface.poll_delay(Instant::ZERO, &set.sockets), None);
        let query = set.start("www.example.com").unwrap();
        assert_eq!(set.iface.poll_delay(Instant::ZERO, &set.sockets), Some(Duration::ZERO));
        set.poll(Instant::ZERO, None);
        let sent = set.sent();
        wants_query(&sent, WWW);
        assert_eq!(set.socket().get_query_result(query).unwrap_err(), GetQueryResultError::Pending);
        assert_eq!(set.poll(Instant::ZERO, Some(answer(&sent, 0, &[RECORD]))), PollResult::SocketStateChanged);
        assert_eq!(set.socket().get_query_result(query).unwrap()[..], [IpAddress::v4(192, 0, 2, 1)]);
        assert_eq!(set.iface.poll_delay(Instant::ZERO, &set.sockets), None);
        // Its slot is free, and its place for a socket.
        set.start("a").unwrap();
        set.start("b").unwrap();
        assert_eq!(set.start("c"), Err(StartQueryError::Exhausted));
    }

    #[test]
    fn a_query_fails() {
        let mut set = Set::new(vec![None; 1]);
        let query = set.start("www.example.com").unwrap();
        assert_eq!(set.start("a"), Err(StartQueryError::NoFreeSlot));
        set.poll(Instant::ZERO, None);
        let sent = set.sent();
        set.poll(Instant::ZERO, Some(answer(&sent, 3, &[])));
        assert_eq!(set.socket().get_query_result(query).unwrap_err(), GetQueryResultError::Failed);
        let query = set.start("www.example.com").unwrap();
        assert_eq!(set.poll(Instant::from_secs(10), None), PollResult::SocketStateChanged);
        assert_eq!(set.socket().get_query_result(query).unwrap_err(), GetQueryResultError::Failed);
    }

    #[test]
    fn queries_are_refused() {
        let mut set = Set::new(vec![]);
        assert_eq!(set.start(""), Err(StartQueryError::InvalidName));
        assert_eq!(set.start("a..b"), Err(StartQueryError::InvalidName));
        assert_eq!(set.start(&"a".repeat(64)), Err(StartQueryError::InvalidName));
        assert_eq!(set.start(&"a.".repeat(128)), Err(StartQueryError::NameTooLong));
        set.socket().update_servers(&[]);
        assert_eq!(set.start("a"), Err(StartQueryError::NoServer));
        set.socket().update_servers(&[SERVER.into(); 5]);
        let query = set.start("a").unwrap();
        set.socket().cancel_query(query);
        // Two UDP sockets have both places.
        let room = udp::PacketBuffer::with_capacity(1, 64);
        for port in [7, 8] {
            let mut socket = udp::Socket::new(room, room);
            socket.bind(port).unwrap();
            set.sockets.add(socket);
        }
        assert_eq!(set.start("a"), Err(StartQueryError::Exhausted));
    }

    #[test]
    #[should_panic = "the handle names no query"]
    fn a_handle_is_good_once() {
        let mut set = Set::new(vec![]);
        let query = set.start("a").unwrap();
        set.socket().cancel_query(query);
        let _ = set.socket().get_query_result(query);
    }

    /// Taken out of a set its queries fail. Those that it starts then, and in a set again, are sent.
    #[test]
    fn it_goes_from_set_to_set() {
        let mut set = Set::new(vec![]);
        let query = set.start("www.example.com").unwrap();
        let mut socket = set.sockets.remove(set.handle);
        let fumitorygate::socket::Socket::Dns(names) = &mut socket else { panic!("another kind") };
        assert_eq!(names.get_query_result(query).unwrap_err(), GetQueryResultError::Failed);
        names.start_query(set.iface.context(), "c", DnsQueryType::A).unwrap();
        set.handle = set.sockets.add(socket);
        set.start("a").unwrap();
        set.poll(Instant::ZERO, None);
        assert!(set.device.sent.len() > 1, "both ask");
    }

    #[cfg(feature = "async")]
    #[test]
    fn a_result_wakes() {
        use std::sync::Arc;
        use std::sync::atomic::{AtomicUsize, Ordering::SeqCst};
        struct Count(AtomicUsize);
        impl std::task::Wake for Count {
            fn wake(self: Arc<Self>) {
                self.0.fetch_add(1, SeqCst);
            }
        }
        let mut set = Set::new(vec![]);
        let query = set.start("www.example.com").unwrap();
        let count = Arc::new(Count(AtomicUsize::new(0)));
        set.socket().register_query_waker(query, &count.clone().into());
        set.poll(Instant::ZERO, None);
        let sent = set.sent();
        assert_eq!(count.0.load(SeqCst), 0);
        set.poll(Instant::ZERO, Some(answer(&sent, 0, &[RECORD])));
        assert_eq!(count.0.load(SeqCst), 1);
    }
}
