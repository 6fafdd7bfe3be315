//! TCP sockets: two hosts in one process, over a pair of devices. What is expected comes from RFC 9293, from smoltcp's
//! documentation of these calls, and from `API.md`.
#![cfg(feature = "alloc")]
mod common;

use common::tcp4;
use fumitorygate::iface::{Config, Interface, PollResult, SocketHandle, SocketSet};
use fumitorygate::phy::{Medium, MemoryDevice};
use fumitorygate::socket::tcp::{self, ConnectError, ListenError, RecvError, SendError, State};
use fumitorygate::time::{Duration, Instant};
use fumitorygate::wire::{
    EthernetAddress, HardwareAddress, IpAddress, IpCidr, IpEndpoint, IpListenEndpoint, Ipv4Address,
};
use fumitorygate::{Error, Secrets};

const SERVER: Ipv4Address = Ipv4Address::new(10, 0, 0, 1);
const CLIENT: Ipv4Address = Ipv4Address::new(10, 0, 0, 2);

const SECRETS: Secrets = Secrets { number_key: [7; 32], table_key: [8, 9] };

/// An interface with its sockets.
struct Node {
    device: MemoryDevice,
    iface: Interface,
    sockets: SocketSet<'static>,
}

fn config() -> Config {
    let mut config = Config::new(HardwareAddress::Ip);
    config.random_seed = 1;
    config.tcp.secrets = if cfg!(feature = "std") { None } else { Some(SECRETS) };
    config
}

fn socket() -> tcp::Socket<'static> {
    tcp::Socket::new(tcp::SocketBuffer::new(vec![0; 4096]), tcp::SocketBuffer::new(vec![0; 4096]))
}

impl Node {
    fn new(address: Ipv4Address, config: Config) -> Node {
        let mut device = MemoryDevice::new(Medium::Ip, 1500);
        let mut iface = Interface::new(config, &mut device, Instant::ZERO);
        iface.update_ip_addrs(|list| list.push(IpCidr::new(address.into(), 24)).unwrap());
        let sockets = SocketSet::of(&iface);
        Node { device, iface, sockets }
    }

    fn poll(&mut self, now: Instant) -> PollResult {
        self.iface.poll(now, &mut self.device, &mut self.sockets)
    }

    fn get(&mut self, handle: SocketHandle) -> &mut tcp::Socket<'static> {
        self.sockets.get_mut(handle)
    }

    fn listen(&mut self, port: u16) -> SocketHandle {
        let mut socket = socket();
        socket.listen(port).unwrap();
        self.sockets.add(socket)
    }

    fn connect(&mut self, port: u16, from: u16) -> SocketHandle {
        let handle = self.sockets.add(socket());
        let socket = self.sockets.get_mut::<tcp::Socket>(handle);
        socket.connect(self.iface.context(), (SERVER, port), from).unwrap();
        handle
    }

    fn states(&mut self, handles: &[SocketHandle]) -> Vec<State> {
        handles.iter().map(|handle| self.get(*handle).state()).collect()
    }
}

/// A server and a client, and the time.
struct World {
    server: Node,
    client: Node,
    now: Instant,
    /// Random words, where the link loses and repeats one in eight frames.
    noise: Option<u64>,
}

impl World {
    fn new() -> World {
        World {
            server: Node::new(SERVER, config()),
            client: Node::new(CLIENT, config()),
            now: Instant::ZERO,
            noise: None,
        }
    }

    /// How often a frame comes.
    fn times(&mut self) -> usize {
        let Some(word) = &mut self.noise else { return 1 };
        // Knuth's MMIX.
        *word = word.wrapping_mul(6364136223846793005).wrapping_add(1442695040888963407);
        match *word >> 61 {
            0 => 0,
            1 => 2,
            _ => 1,
        }
    }

    /// Hands frames over until there are none.
    fn settle(&mut self) {
        for _ in 0..1000 {
            self.server.poll(self.now);
            self.client.poll(self.now);
            if self.server.device.sent.is_empty() && self.client.device.sent.is_empty() {
                return;
            }
            while let Some(frame) = self.server.device.sent.pop_front() {
                (0..self.times()).for_each(|_| self.client.device.incoming.push_back(frame.clone()));
            }
            while let Some(frame) = self.client.device.sent.pop_front() {
                (0..self.times()).for_each(|_| self.server.device.incoming.push_back(frame.clone()));
            }
        }
        panic!("the hosts don't come to rest");
    }

    /// The same, and then for so long whatever is due.
    fn run(&mut self, span: Duration) {
        let end = self.now + span;
        loop {
            self.settle();
            let due = [
                self.server.iface.poll_at(self.now, &self.server.sockets),
                self.client.iface.poll_at(self.now, &self.client.sockets),
            ];
            match due.into_iter().flatten().min() {
                Some(at) if at <= end => self.now = at.max(self.now + Duration::from_micros(1)),
                _ => break,
            }
        }
        self.now = end;
    }

    /// A connection to port 7.
    fn connected() -> (World, SocketHandle, SocketHandle) {
        let mut world = World::new();
        let (server, client) = (world.server.listen(7), world.client.connect(7, 49152));
        world.settle();
        (world, server, client)
    }
}

/// RFC 9293 3.5, figure 6; the ends of both sides.
#[test]
fn a_handshake_connects_both() {
    let mut world = World::new();
    let server = world.server.listen(7);
    let socket = world.server.get(server);
    assert_eq!(
        (socket.state(), socket.is_listening(), socket.is_open(), socket.is_active()),
        (State::Listen, true, true, false)
    );
    assert_eq!((socket.listen_endpoint(), socket.local_endpoint()), (IpListenEndpoint::from(7), None));
    assert_eq!((socket.may_send(), socket.may_recv()), (false, false));

    let client = world.client.connect(7, 49152);
    let socket = world.client.get(client);
    assert_eq!((socket.state(), socket.is_open(), socket.is_active()), (State::SynSent, true, true));
    assert_eq!(
        (socket.may_send(), socket.can_send(), socket.may_recv(), socket.can_recv()),
        (false, false, false, false)
    );

    world.settle();
    let (own, peer) = (IpEndpoint::new(SERVER.into(), 7), IpEndpoint::new(CLIENT.into(), 49152));
    for (node, handle, ends) in [(&mut world.server, server, (own, peer)), (&mut world.client, client, (peer, own))] {
        let socket = node.get(handle);
        assert_eq!((socket.state(), socket.is_open(), socket.is_active()), (State::Established, true, true));
        assert_eq!((socket.local_endpoint(), socket.remote_endpoint()), (Some(ends.0), Some(ends.1)));
        assert_eq!(
            (socket.may_send(), socket.can_send(), socket.may_recv(), socket.can_recv()),
            (true, true, true, false)
        );
    }
    assert_eq!(world.server.get(server).listen_endpoint(), IpListenEndpoint::from(7));
    assert!(!world.server.get(server).is_listening());
}

/// Each call that reads and writes, both ways.
#[test]
fn octets_go_both_ways() {
    let (mut world, server, client) = World::connected();
    assert_eq!(world.client.get(client).send_slice(b"abcdef"), Ok(6));
    assert_eq!(world.client.get(client).send_queue(), 6);
    world.run(Duration::from_millis(20));
    assert_eq!(world.client.get(client).send_queue(), 0);
    let socket = world.server.get(server);
    assert_eq!((socket.can_recv(), socket.recv_queue()), (true, 6));
    let mut out = [0; 4];
    assert_eq!((socket.peek_slice(&mut out), out), (Ok(4), *b"abcd"));
    assert_eq!(socket.peek(3), Ok(&b"abc"[..]));
    assert_eq!(socket.peek(100), Ok(&b"abcdef"[..]));
    assert_eq!(socket.recv(|octets| (2, octets.to_vec())), Ok(b"abcdef".to_vec()));
    assert_eq!((socket.recv_slice(&mut out), out), (Ok(4), *b"cdef"));
    assert_eq!((socket.recv_slice(&mut out), socket.can_recv(), socket.may_recv()), (Ok(0), false, true));
    assert_eq!(socket.recv(|octets| (0, octets.len())), Ok(0));

    let sent = socket.send(|octets| {
        octets[..5].copy_from_slice(b"hello");
        (5, octets.len())
    });
    assert_eq!(sent, Ok(4096));
    world.settle();
    let mut out = [0; 16];
    let socket = world.client.get(client);
    assert_eq!(socket.recv_slice(&mut out), Ok(5));
    assert_eq!(&out[..5], b"hello");
}

/// A megabyte through buffers of four kilobytes, in order.
#[test]
fn much_goes_through_short_buffers() {
    let world = World::connected();
    transfer(world, 1 << 20);
}

fn transfer((mut world, server, client): (World, SocketHandle, SocketHandle), count: usize) {
    let octet = |place: usize| (place % 251) as u8;
    let (mut sent, mut came) = (0, 0);
    while came < count {
        let chunk: Vec<u8> = (sent..(sent + 5000).min(count)).map(octet).collect();
        sent += world.client.get(client).send_slice(&chunk).unwrap();
        let socket = world.client.get(client);
        assert_eq!(socket.can_send(), socket.send_queue() < socket.send_capacity());
        world.run(Duration::from_millis(20));
        let read = world.server.get(server).recv(|octets| (octets.len(), octets.to_vec())).unwrap();
        assert!(read.iter().enumerate().all(|(place, one)| *one == octet(came + place)));
        came += read.len();
    }
    assert_eq!((sent, came), (count, count));
    world.client.get(client).close();
    world.server.get(server).close();
    world.run(Duration::from_secs(200));
    assert_eq!(
        (world.client.states(&[client]), world.server.states(&[server])),
        (vec![State::Closed], vec![State::Closed])
    );
    assert_eq!(world.server.get(server).recv_slice(&mut [0; 8]), Err(RecvError::Finished));
}

/// RFC 9293 3.8.1: what is lost is sent again, and what comes twice is taken once.
#[test]
fn octets_come_over_a_bad_link() {
    for seed in 1..=8 {
        let mut world = World::new();
        world.noise = Some(seed);
        let (server, client) = (world.server.listen(7), world.client.connect(7, 49152));
        world.run(Duration::from_secs(30));
        assert_eq!(world.client.states(&[client]), [State::Established]);
        transfer((world, server, client), 100_000);
    }
}

/// Over IPv6; and a listener of one address.
#[test]
fn sockets_connect_over_ipv6() {
    let mut world = World::new();
    let [own, peer] = [1, 2].map(|last| IpAddress::v6(0xfd00, 0, 0, 0, 0, 0, 0, last));
    for (node, address) in [(&mut world.server, own), (&mut world.client, peer)] {
        node.iface.update_ip_addrs(|list| list.push(IpCidr::new(address, 64)).unwrap());
    }
    let (server, client) = (world.server.sockets.add(socket()), world.client.sockets.add(socket()));
    world.server.get(server).listen((own, 7)).unwrap();
    let socket = world.client.sockets.get_mut::<tcp::Socket>(client);
    socket.connect(world.client.iface.context(), (own, 7), (peer, 49152)).unwrap();
    world.settle();
    assert_eq!(world.server.get(server).remote_endpoint(), Some(IpEndpoint::new(peer, 49152)));
    world.client.get(client).send_slice(b"abc").unwrap();
    world.settle();
    assert_eq!(world.server.get(server).peek(8), Ok(&b"abc"[..]));
}

/// A host with one connection serves one peer after the other.
#[test]
fn one_connection_is_enough_to_listen() {
    let mut world = World::new();
    let mut own = config();
    own.tcp.connections = Some(1);
    world.server = Node::new(SERVER, own);
    let server = world.server.listen(7);
    for port in 49152..49155 {
        let client = world.client.connect(7, port);
        world.run(Duration::from_secs(1));
        assert_eq!(world.client.states(&[client]), [State::Established]);
        world.server.get(server).close();
        world.client.get(client).close();
        world.run(Duration::from_secs(1));
        assert_eq!(world.server.states(&[server]), [State::TimeWait]);
        world.server.get(server).listen(7).unwrap();
    }
}

/// RFC 9293 3.6 and 3.10.4: each side closes its own half, and what was written before goes out.
#[test]
fn each_half_is_closed_by_itself() {
    let (mut world, server, client) = World::connected();
    world.client.get(client).send_slice(b"last").unwrap();
    world.client.get(client).close();
    let socket = world.client.get(client);
    assert_eq!((socket.state(), socket.may_send(), socket.may_recv()), (State::FinWait1, false, true));
    assert_eq!((socket.send_slice(b"more"), socket.send_queue()), (Err(SendError::InvalidState), 4));
    assert_eq!(socket.send(|_| (0, ())), Err(SendError::InvalidState));
    world.run(Duration::from_millis(20));
    assert_eq!(world.client.get(client).state(), State::FinWait2);
    assert_eq!(world.client.get(client).send_queue(), 0);

    let socket = world.server.get(server);
    assert_eq!((socket.state(), socket.may_send(), socket.may_recv()), (State::CloseWait, true, true));
    let mut out = [0; 8];
    assert_eq!(socket.recv_slice(&mut out), Ok(4));
    assert_eq!((socket.may_recv(), socket.recv_slice(&mut out)), (false, Err(RecvError::Finished)));
    assert_eq!(socket.peek(1), Err(RecvError::Finished));
    assert_eq!(socket.peek_slice(&mut out), Err(RecvError::Finished));
    assert_eq!(socket.recv(|_| (0, ())), Err(RecvError::Finished));
    assert_eq!(socket.send_slice(b"answer"), Ok(6));
    world.run(Duration::from_millis(20));
    assert_eq!(world.client.get(client).recv(|octets| (octets.len(), octets.len())), Ok(6));

    world.server.get(server).close();
    assert_eq!(world.server.get(server).state(), State::LastAck);
    world.run(Duration::from_millis(20));
    let socket = world.server.get(server);
    assert_eq!((socket.state(), socket.is_open(), socket.remote_endpoint()), (State::Closed, false, None));
    assert_eq!(socket.recv_slice(&mut out), Err(RecvError::Finished));
    let socket = world.client.get(client);
    assert_eq!((socket.state(), socket.is_open(), socket.is_active()), (State::TimeWait, false, false));
    assert_eq!(socket.recv_slice(&mut out), Err(RecvError::Finished));
    world.run(Duration::from_secs(61));
    assert_eq!(world.client.get(client).state(), State::Closed);
    assert_eq!(world.client.get(client).recv_slice(&mut out), Err(RecvError::Finished));
}

/// RFC 9293 3.10.5: the peer gets a reset.
#[test]
fn an_aborted_connection_resets_its_peer() {
    let (mut world, server, client) = World::connected();
    world.client.get(client).abort();
    assert_eq!(world.client.get(client).state(), State::Closed);
    world.settle();
    let socket = world.server.get(server);
    assert_eq!((socket.state(), socket.remote_endpoint()), (State::Closed, None));
    assert_eq!(socket.recv_slice(&mut [0; 8]), Err(RecvError::InvalidState));
    assert_eq!(socket.send_slice(b"late"), Err(SendError::InvalidState));
    // Both serve again.
    world.server.get(server).listen(7).unwrap();
    let socket = world.client.sockets.get_mut::<tcp::Socket>(client);
    socket.connect(world.client.iface.context(), (SERVER, 7), 49152).unwrap();
    world.settle();
    assert_eq!(world.server.states(&[server]), [State::Established]);
}

/// RFC 9293 3.10.7.1: where nobody listens, a reset answers a SYN.
#[test]
fn nobody_listens() {
    let mut world = World::new();
    let other = world.server.listen(8);
    let client = world.client.connect(7, 49152);
    world.settle();
    let socket = world.client.get(client);
    assert_eq!((socket.state(), socket.recv_slice(&mut [0; 8])), (State::Closed, Err(RecvError::InvalidState)));
    assert_eq!(world.server.states(&[other]), [State::Listen]);
}

/// Eight peers at once at eight sockets of one port, each served by its own. The ninth is reset, unless a socket listens
/// again within a second.
#[test]
fn eight_sockets_listen_at_one_port() {
    let mut world = World::new();
    let servers: Vec<_> = (0..8).map(|_| world.server.listen(7)).collect();
    let mut clients = Vec::new();
    for place in 0..8 {
        clients.push(world.client.connect(7, 50000 + place));
        world.client.poll(world.now);
    }
    world.settle();
    for (place, client) in clients.iter().enumerate() {
        world.client.get(*client).send_slice(&[place as u8]).unwrap();
    }
    world.settle();
    assert_eq!(world.server.states(&servers), [State::Established; 8]);
    let mut seen = Vec::new();
    for server in &servers {
        let socket = world.server.get(*server);
        let octet = socket.recv(|octets| (octets.len(), octets[0])).unwrap();
        assert_eq!(socket.remote_endpoint().unwrap().port, 50000 + u16::from(octet));
        seen.push(octet);
    }
    seen.sort_unstable();
    assert_eq!(seen, [0, 1, 2, 3, 4, 5, 6, 7]);

    let ninth = world.client.connect(7, 50008);
    world.run(Duration::from_millis(999));
    assert_eq!(world.client.states(&[ninth]), [State::Established]);
    world.run(Duration::from_millis(2));
    assert_eq!(world.client.states(&[ninth]), [State::Closed]);

    let socket = world.client.sockets.get_mut::<tcp::Socket>(ninth);
    socket.connect(world.client.iface.context(), (SERVER, 7), 50009).unwrap();
    world.run(Duration::from_millis(500));
    world.server.get(servers[3]).abort();
    world.server.get(servers[3]).listen(7).unwrap();
    assert_eq!(world.server.states(&[servers[3]]), [State::Listen]);
    assert!(world.server.iface.poll_at(world.now, &world.server.sockets) <= Some(world.now));
    world.settle();
    assert_eq!(world.server.get(servers[3]).remote_endpoint(), Some(IpEndpoint::new(CLIENT.into(), 50009)));
    world.run(Duration::from_secs(2));
    assert_eq!(world.client.states(&[ninth]), [State::Established]);
}

/// RFC 9293 3.5: SYNs of one peer that come at once are all acknowledged at once, by their own numbers.
#[test]
fn handshakes_begin_at_once() {
    let mut node = Node::new(SERVER, config());
    (0..8).for_each(|_| {
        node.listen(7);
    });
    for place in 0..8 {
        let syn = tcp4(CLIENT, SERVER, (50000 + place, 7), (u32::from(place) << 8, 0), 2, 1000, b"");
        node.device.incoming.push_back(syn);
    }
    node.poll(Instant::ZERO);
    assert_eq!(node.device.sent.len(), 8);
    for (place, answer) in node.device.sent.iter().enumerate() {
        assert_eq!((answer[22..24].to_vec(), answer[33]), ((50000 + place as u16).to_be_bytes().to_vec(), 0x12));
        assert_eq!(answer[28..32], ((place as u32) << 8 | 1).to_be_bytes());
    }
}

/// One that has stopped to listen takes no connection, and neither does one at another address.
#[test]
fn who_does_not_listen_takes_none() {
    let mut world = World::new();
    let server = world.server.listen(7);
    world.server.get(server).close();
    assert_eq!(world.server.states(&[server]), [State::Closed]);
    let other = world.server.sockets.add(socket());
    world.server.get(other).listen((IpAddress::v4(10, 0, 0, 9), 7)).unwrap();
    let client = world.client.connect(7, 49152);
    world.settle();
    assert_eq!(world.client.states(&[client]), [State::Closed]);
    assert_eq!(world.server.states(&[server, other]), [State::Closed, State::Listen]);
}

/// smoltcp's names for what is wrong, in its order.
#[test]
fn wrong_calls_are_refused_by_name() {
    let (mut world, server, client) = World::connected();
    let mut closed = socket();
    assert_eq!((closed.state(), closed.is_open()), (State::Closed, false));
    assert_eq!(closed.listen(0), Err(ListenError::Unaddressable));
    assert_eq!(closed.listen((IpAddress::v4(224, 0, 0, 1), 7)), Err(ListenError::Unaddressable));
    assert_eq!(
        (closed.send_slice(b"a"), closed.recv_slice(&mut [0])),
        (Err(SendError::InvalidState), Err(RecvError::InvalidState))
    );
    assert_eq!(closed.peek(1), Err(RecvError::InvalidState));
    assert_eq!((closed.can_send(), closed.can_recv()), (false, false));
    closed.close();
    closed.abort();
    closed.listen(9).unwrap();
    assert_eq!(
        (closed.state(), closed.listen(9), closed.listen(10)),
        (State::Listen, Ok(()), Err(ListenError::InvalidState))
    );
    assert_eq!(
        (closed.send_slice(b"a"), closed.recv_slice(&mut [0])),
        (Err(SendError::InvalidState), Err(RecvError::InvalidState))
    );

    assert_eq!(world.server.get(server).listen(7), Err(ListenError::InvalidState));
    let again = world.client.sockets.get_mut::<tcp::Socket>(client);
    let cx = world.client.iface.context();
    assert_eq!(again.connect(cx, (SERVER, 7), 49153), Err(ConnectError::InvalidState));
    let mut other = socket();
    let none = IpAddress::v4(0, 0, 0, 0);
    assert_eq!(other.connect(cx, (SERVER, 0), 49153), Err(ConnectError::Unaddressable));
    assert_eq!(other.connect(cx, (none, 7), 49153), Err(ConnectError::Unaddressable));
    assert_eq!(other.connect(cx, (SERVER, 7), 0), Err(ConnectError::Unaddressable));
    let v6 = IpAddress::v6(0xfd00, 0, 0, 0, 0, 0, 0, 1);
    assert_eq!(other.connect(cx, (v6, 7), (IpAddress::Ipv4(CLIENT), 49153)), Err(ConnectError::Unaddressable));
    assert_eq!(other.connect(cx, (SERVER, 7), 49152), Err(ConnectError::InUse));
    assert_eq!(other.state(), State::Closed);
    assert_eq!(other.connect(cx, (SERVER, 7), 49153), Ok(()));
    let texts = [ListenError::InvalidState.to_string(), RecvError::Finished.to_string(), State::FinWait1.to_string()];
    assert_eq!(texts, ["invalid state", "operation finished", "FIN-WAIT-1"]);
}

/// `TcpConfig`: so many connections, with so much room; the others' sockets stay.
#[test]
fn connections_are_as_the_configuration_says() {
    let mut own = config();
    own.sockets = 0;
    own.tcp.connections = Some(1);
    own.tcp.send_room = Some(100);
    own.tcp.receive_room = Some(200);
    own.tcp.secrets = Some(SECRETS);
    let mut node = Node::new(CLIENT, own);
    let first = node.connect(7, 49152);
    assert_eq!((node.get(first).send_capacity(), node.get(first).recv_capacity()), (100, 200));
    let second = node.sockets.add(socket());
    let cx = node.iface.context();
    let socket = node.sockets.get_mut::<tcp::Socket>(second);
    assert_eq!(socket.connect(cx, (SERVER, 7), 49153), Err(ConnectError::Exhausted));
    let mut udp = fumitorygate::socket::udp::Socket::new(
        fumitorygate::socket::udp::PacketBuffer::with_capacity(1, 64),
        fumitorygate::socket::udp::PacketBuffer::with_capacity(1, 64),
    );
    udp.bind(7).unwrap();
    assert_eq!(node.sockets.try_add(udp).unwrap_err().error, Error::TableFull);
}

/// RFC 9293 3.8.3 and 3.10.8: a peer that is silent isn't waited for beyond the timeout. The time alone changes the socket.
#[test]
fn a_silent_peer_is_given_up() {
    let mut world = World::new();
    let client = world.client.sockets.add(socket());
    let socket = world.client.sockets.get_mut::<tcp::Socket>(client);
    socket.set_timeout(Some(Duration::from_secs(5)));
    assert_eq!(socket.timeout(), Some(Duration::from_secs(5)));
    socket.connect(world.client.iface.context(), (IpAddress::v4(10, 0, 0, 9), 7), 49152).unwrap();
    world.run(Duration::from_secs(4));
    assert_eq!(world.client.states(&[client]), [State::SynSent]);
    world.run(Duration::from_secs(3));
    assert_eq!(world.client.states(&[client]), [State::Closed]);
}

/// The packets of a connection may pass as many routers as its socket says, the first one among them.
#[test]
fn packets_have_the_hop_limit() {
    let mut world = World::new();
    world.server.listen(7);
    let client = world.client.sockets.add(socket());
    let socket = world.client.sockets.get_mut::<tcp::Socket>(client);
    assert_eq!(socket.hop_limit(), None);
    socket.set_hop_limit(Some(3));
    assert_eq!(socket.hop_limit(), Some(3));
    socket.connect(world.client.iface.context(), (SERVER, 7), 49152).unwrap();
    world.client.poll(world.now);
    let hops = |node: &Node| node.device.sent.iter().map(|packet| (packet[9], packet[8])).collect::<Vec<_>>();
    assert_eq!(hops(&world.client), [(6, 3)]);
    world.settle();
    assert_eq!(world.client.states(&[client]), [State::Established]);
    world.client.get(client).set_hop_limit(None);
    world.client.get(client).send_slice(b"far").unwrap();
    world.client.poll(world.now);
    assert_eq!(hops(&world.client), [(6, 64)]);
}

/// On Ethernet, where no neighbour answers: polls come to an end at each instant, and connections once it is given up (RFC 9293 3.9.2.2).
#[test]
fn an_absent_neighbour_ends_no_poll() {
    let mut device = MemoryDevice::new(Medium::Ethernet, 1514);
    let mut own = config();
    own.hardware_addr = EthernetAddress([2, 0, 0, 0, 0, 1]).into();
    let mut iface = Interface::new(own, &mut device, Instant::ZERO);
    iface.update_ip_addrs(|list| list.push(IpCidr::new(CLIENT.into(), 24)).unwrap());
    let mut sockets = SocketSet::of(&iface);
    let handles = [49152, 49153].map(|port| {
        let handle = sockets.add(socket());
        let socket = sockets.get_mut::<tcp::Socket>(handle);
        // A SYN is sent again after 1, 3, 7 and 15 seconds (RFC 6298 5.5).
        socket.set_timeout(Some(Duration::from_secs(15)));
        socket.connect(iface.context(), (SERVER, 7), port).unwrap();
        handle
    });
    let mut now = Instant::ZERO;
    loop {
        let polls = (0..100).find(|_| iface.poll(now, &mut device, &mut sockets) == PollResult::None);
        assert!(polls.is_some(), "a poll that doesn't end");
        assert!(now <= Instant::from_secs(16), "a connection that doesn't end");
        if handles.iter().all(|handle| !sockets.get::<tcp::Socket>(*handle).is_open()) {
            break;
        }
        now = iface.poll_at(now, &sockets).unwrap().max(now + Duration::from_micros(1));
    }
    // After three requests, a second apart (RFC 4861 7.2.2, 10).
    assert!(now >= Instant::from_secs(3) && now <= Instant::from_secs(4), "{now}");
}

/// RFC 9293 3.8.4: without the setting nothing is sent; with it a silent peer is probed, and one that answers stays.
#[test]
fn a_socket_is_kept_alive() {
    for interval in [None, Some(Duration::from_secs(10))] {
        let (mut world, _, client) = World::connected();
        assert_eq!(world.client.get(client).keep_alive(), None);
        world.client.get(client).set_keep_alive(interval);
        assert_eq!(world.client.get(client).keep_alive(), interval);
        let before = world.client.iface.counters().frames_out;
        world.run(Duration::from_secs(1000));
        assert_eq!(world.client.iface.counters().frames_out - before, if interval.is_some() { 100 } else { 0 });
        assert_eq!(world.client.states(&[client]), [State::Established]);
    }
}

/// RFC 9293 3.7.4: a short segment waits for the one before, unless the program says otherwise; 3.8.6.3: so does an
/// acknowledgement.
#[test]
fn short_segments_wait() {
    for (nagle, segments) in [(true, 1), (false, 2)] {
        let (mut world, server, client) = World::connected();
        let socket = world.client.get(client);
        assert!(socket.nagle_enabled());
        socket.set_nagle_enabled(nagle);
        assert_eq!(socket.nagle_enabled(), nagle);
        for text in [b"a", b"b"] {
            world.client.get(client).send_slice(text).unwrap();
            world.client.poll(world.now);
        }
        assert_eq!(world.client.device.sent.len(), segments);
        assert_eq!(world.server.get(server).ack_delay(), Some(Duration::from_millis(10)));
        world.server.get(server).set_ack_delay(None);
        world.settle();
        assert_eq!(world.client.get(client).send_queue(), 0);
        assert_eq!(world.server.get(server).recv_queue(), 2);
    }
}

/// A socket keeps its connection outside its set, and lets go of it when it is dropped: a peer that may still send is
/// reset.
#[test]
fn a_socket_that_is_dropped_lets_go() {
    let (mut world, server, client) = World::connected();
    let taken = world.client.sockets.remove(client);
    world.server.get(server).send_slice(b"late").unwrap();
    world.settle();
    let client = world.client.sockets.add(taken);
    assert_eq!(world.client.get(client).recv_queue(), 4);
    drop(world.client.sockets.remove(client));
    world.settle();
    assert_eq!(world.server.states(&[server]), [State::Closed]);
}

/// Lets the other thread run, also where one runs at a time.
fn rest() {
    std::thread::sleep(std::time::Duration::from_millis(1));
}

/// `README.md`, Threads: sockets in a set of another thread than the one that polls.
#[test]
fn another_thread_serves() {
    let mut world = World::new();
    let mut sockets: SocketSet<'static> = SocketSet::of(&world.server.iface);
    let client = world.client.sockets.add(socket());
    let server = std::thread::spawn(move || {
        let handle = sockets.add(socket());
        let socket = sockets.get_mut::<tcp::Socket>(handle);
        socket.listen(7).unwrap();
        let mut came = Vec::new();
        while came.len() < 100_000 {
            if socket.may_recv() {
                came.extend(socket.recv(|octets| (octets.len(), octets.to_vec())).unwrap());
            }
            rest();
        }
        came
    });
    // Where nobody listens yet it is refused.
    while world.client.get(client).state() != State::Established {
        let socket = world.client.sockets.get_mut::<tcp::Socket>(client);
        if !socket.is_open() {
            socket.connect(world.client.iface.context(), (SERVER, 7), 49152).unwrap();
        }
        world.run(Duration::from_millis(20));
        rest();
    }
    let octets: Vec<u8> = (0..100_000_u32).map(|place| (place % 251) as u8).collect();
    let mut sent = 0;
    while !server.is_finished() {
        // The server's socket is dropped when it has all.
        sent += world.client.get(client).send_slice(&octets[sent..]).unwrap_or(0);
        world.run(Duration::from_millis(20));
        rest();
    }
    assert_eq!(server.join().unwrap(), octets);
}

/// A segment of no connection is answered by a reset (RFC 9293 3.10.7.1), by the host as by its connections.
#[test]
fn a_stray_segment_is_reset() {
    let stray = || tcp4(CLIENT, SERVER, (50000, 7), (100, 200), 0x10, 1000, b"");
    for listens in [false, true] {
        let mut node = Node::new(SERVER, config());
        if listens {
            node.listen(7);
        }
        node.device.incoming.push_back(stray());
        node.poll(Instant::ZERO);
        let reset = node.device.sent.pop_front().unwrap();
        assert_eq!((&reset[24..28], reset[33]), (&200u32.to_be_bytes()[..], 4));
        assert!(node.device.sent.is_empty());
    }
}

/// `API.md`: without `std` secrets have to be set.
#[cfg(not(feature = "std"))]
#[test]
fn without_secrets_nothing_begins() {
    let mut node = Node::new(SERVER, Config::new(HardwareAddress::Ip));
    let handle = node.sockets.add(socket());
    let socket = node.sockets.get_mut::<tcp::Socket>(handle);
    assert_eq!(socket.listen(7), Err(ListenError::NoSecrets));
    assert_eq!(socket.connect(node.iface.context(), (CLIENT, 7), 49152), Err(ConnectError::NoSecrets));
    let mut other = tcp::Socket::new(tcp::SocketBuffer::with_capacity(8), tcp::SocketBuffer::with_capacity(8));
    assert_eq!(other.listen(7), Ok(()));
    assert_eq!(node.sockets.try_add(other).unwrap_err().error, Error::NoSecrets);
}

#[cfg(feature = "async")]
mod wakers {
    use super::*;
    use std::sync::Arc;
    use std::sync::atomic::{AtomicUsize, Ordering::SeqCst};
    use std::task::{Wake, Waker};

    #[derive(Default)]
    struct Count(AtomicUsize);

    impl Wake for Count {
        fn wake(self: Arc<Count>) {
            self.0.fetch_add(1, SeqCst);
        }
    }

    fn task() -> (Arc<Count>, Waker) {
        let count = Arc::new(Count::default());
        (count.clone(), count.into())
    }

    #[test]
    fn a_reader_and_a_writer_are_woken_once() {
        let mut world = World::new();
        let server = world.server.listen(7);
        let ((reads, reader), (writes, writer)) = (task(), task());
        let counts = || (reads.0.load(SeqCst), writes.0.load(SeqCst));
        world.server.get(server).register_recv_waker(&reader);
        world.server.get(server).register_send_waker(&writer);
        world.settle();
        assert_eq!(counts(), (0, 0));
        // A connection changes the state.
        let client = world.client.connect(7, 49152);
        world.settle();
        assert_eq!(counts(), (1, 1));
        // Octets come: the reader's.
        world.server.get(server).register_recv_waker(&reader);
        world.server.get(server).register_send_waker(&writer);
        world.client.get(client).send_slice(b"a").unwrap();
        world.run(Duration::from_millis(20));
        assert_eq!(counts(), (2, 1));
        // Octets are acknowledged: the writer's.
        world.server.get(server).send_slice(&[0; 4096]).unwrap();
        assert!(!world.server.get(server).can_send());
        world.run(Duration::from_millis(20));
        assert_eq!(counts(), (2, 2));
        // The peer's end, and one's own call.
        world.server.get(server).recv(|octets| (octets.len(), ())).unwrap();
        world.server.get(server).register_recv_waker(&reader);
        world.client.get(client).close();
        world.settle();
        assert_eq!(counts(), (3, 2));
        world.server.get(server).register_send_waker(&writer);
        world.server.get(server).abort();
        assert_eq!(counts(), (3, 3));
    }
}
