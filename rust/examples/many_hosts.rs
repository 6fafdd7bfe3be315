//! Many hosts on one Ethernet in memory, each of which sends numbered datagrams to another one. The link loses, repeats,
//! delays and so reorders frames, by a seed: the same arguments always print the same, which `c/examples/many_hosts.c`
//! prints, too. No clock is read. Time goes on to what happens next: a frame arrives, a datagram is due, or the instant
//! comes that `poll_at` told. So a quiet network takes no step, whatever time passes.
//!
//!   many_hosts [HOSTS [SEED [LOST [REPEATED]]]]     20, 1, 100 and 50, if left out; the last two are per mille
//!
//! It prints each datagram that a socket gets, and tables. It panics if one wasn't sent by the host whose address it
//! has, to the host that got it, octet by octet.
use fumitorygate::iface::{Config, Interface, SocketHandle, SocketSet};
use fumitorygate::phy::{Medium, MemoryDevice};
use fumitorygate::socket::udp;
use fumitorygate::time::{Duration, Instant};
use fumitorygate::wire::{EthernetAddress, IpAddress, IpCidr};
use std::collections::BTreeMap;

const PORT: u16 = 7777;
/// How many datagrams each host sends, and how far apart.
const DATAGRAMS: usize = 10;
const EVERY: Duration = Duration::from_millis(50);
/// A payload has 8 to 263 octets.
const SHORTEST: usize = 8;
const LENGTHS: usize = 256;
/// A copy of a frame takes 100 to 5,099 microseconds.
const LEAST_DELAY: u64 = 100;
const DELAYS: u64 = 5_000;

/// A host with a socket.
struct Host {
    iface: Interface,
    sockets: SocketSet<'static>,
    handle: SocketHandle,
    /// When it is to be polled.
    wake: Option<Instant>,
}

/// Host `i` has `i + 1` in its addresses: 10.0.0.1, and 02:00 with four octets.
fn address_of(i: usize) -> IpAddress {
    let [_, b, c, d] = (i as u32 + 1).to_be_bytes();
    IpAddress::v4(10, b, c, d)
}

impl Host {
    fn new(i: usize) -> Host {
        let [a, b, c, d] = (i as u32 + 1).to_be_bytes();
        let mut config = Config::new(EthernetAddress([2, 0, a, b, c, d]).into());
        (config.random_seed, config.sockets) = (i as u64, 1);
        let mut device = MemoryDevice::new(Medium::Ethernet, 1514);
        let mut iface = Interface::new(config, &mut device, Instant::ZERO);
        iface.update_ip_addrs(|addrs| addrs.push(IpCidr::new(address_of(i), 8)).unwrap());
        let mut sockets = SocketSet::of(&iface);
        let queue = udp::PacketBuffer::with_capacity(DATAGRAMS, DATAGRAMS * (SHORTEST + LENGTHS));
        let handle = sockets.add(udp::Socket::new(queue, queue));
        sockets.get_mut::<udp::Socket>(handle).bind(PORT).unwrap();
        Host { iface, sockets, handle, wake: None }
    }

    fn socket(&mut self) -> &mut udp::Socket<'static> {
        self.sockets.get_mut(self.handle)
    }
}

/// What a host sends to another one.
struct Flow {
    to: usize,
    /// How many datagrams its socket took, and when the next one is due.
    sent: usize,
    next: Option<Instant>,
    /// How often each datagram came.
    came: [usize; DATAGRAMS],
}

/// The payload of a datagram: who sends it, its number, and octets that follow from these.
fn payload(from: usize, number: usize) -> Vec<u8> {
    let rest = SHORTEST..SHORTEST + (from * 7 + number * 31) % LENGTHS;
    let head = [from as u32, number as u32].map(u32::to_be_bytes).concat();
    head.into_iter().chain(rest.map(|place| (from + number + place) as u8)).collect()
}

/// Counts a datagram that came to host `i`, which has to be one of the host whose address it has. Returns that and its
/// number.
fn count(flows: &mut [Flow], i: usize, from: IpAddress, got: &[u8]) -> (usize, usize) {
    let IpAddress::Ipv4(address) = from else { panic!("a datagram of {from}") };
    let [_, b, c, d] = address.octets();
    let sender = u32::from_be_bytes([0, b, c, d]) as usize - 1;
    let flow = &mut flows[sender];
    let number = (0..flow.sent).find(|number| got == payload(sender, *number));
    let number = number.expect("a datagram that its sender didn't send");
    assert!(from == address_of(sender) && flow.to == i, "a datagram that was sent to another host");
    flow.came[number] += 1;
    (sender, number)
}

/// Random numbers (xorshift).
#[derive(Default)]
struct Random(u64);

impl Random {
    fn below(&mut self, limit: u64) -> u64 {
        self.0 ^= self.0 << 13;
        self.0 ^= self.0 >> 7;
        self.0 ^= self.0 << 17;
        self.0 % limit
    }
}

/// A copy of a frame arrives at a host; or, if there is none, the host is to be polled.
struct Event {
    to: usize,
    frame: Option<Vec<u8>>,
}

/// The link, and what happens on it: of two events at one instant the one that was planned first comes first.
#[derive(Default)]
struct Ethernet {
    now: Instant,
    steps: u64,
    events: BTreeMap<(Instant, u64), Event>,
    planned: u64,
    random: Random,
    hosts: usize,
    lost_per_mille: u64,
    repeated_per_mille: u64,
    copies: u64,
    lost: u64,
    repeated: u64,
}

impl Ethernet {
    fn plan(&mut self, at: Instant, to: usize, frame: Option<Vec<u8>>) {
        self.events.insert((at, self.planned), Event { to, frame });
        self.planned += 1;
    }

    /// Takes a frame to the hosts that its destination names: to all others if it is broadcast, or a group's.
    fn transmit(&mut self, from: usize, frame: &[u8]) {
        if frame[0] & 1 != 0 {
            (0..self.hosts).filter(|to| *to != from).for_each(|to| self.carry(to, frame));
        } else if let [2, 0, a, b, c, d, ..] = *frame {
            let to = u32::from_be_bytes([a, b, c, d]) as usize - 1;
            self.carry(to, frame);
        }
    }

    /// Takes a copy of a frame to a host: late, perhaps twice, perhaps never.
    fn carry(&mut self, to: usize, frame: &[u8]) {
        let is_lost = self.random.below(1000) < self.lost_per_mille;
        let is_repeated = self.random.below(1000) < self.repeated_per_mille && !is_lost;
        self.copies += 1;
        self.lost += u64::from(is_lost);
        self.repeated += u64::from(is_repeated);
        for _ in 0..u64::from(!is_lost) + u64::from(is_repeated) {
            let delay = Duration::from_micros(LEAST_DELAY + self.random.below(DELAYS));
            self.plan(self.now + delay, to, Some(frame.to_vec()));
        }
    }
}

struct Network {
    hosts: Vec<Host>,
    flows: Vec<Flow>,
    ethernet: Ethernet,
}

impl Network {
    fn new(count: usize, seed: u64, lost_per_mille: u64, repeated_per_mille: u64) -> Network {
        let mut random = Random(0x9e37_79b9_7f4a_7c15 ^ seed);
        let mut flow = |i: usize| {
            let to = (i + 1 + random.below(count as u64 - 1) as usize) % count;
            Flow { to, sent: 0, next: Some(Instant::from_millis(i as u32)), came: [0; DATAGRAMS] }
        };
        let (hosts, flows) = (0..count).map(|i| (Host::new(i), flow(i))).unzip();
        let ethernet = Ethernet { random, hosts: count, lost_per_mille, repeated_per_mille, ..Ethernet::default() };
        let mut network = Network { hosts, flows, ethernet };
        (0..count).for_each(|i| network.plan_poll(i, network.flows[i].next));
        network
    }

    /// All that happens, until nothing is due any more.
    fn run(&mut self) {
        while let Some(((at, _), Event { to, frame })) = self.ethernet.events.pop_first() {
            // An instant that the host didn't tell last is past.
            if frame.is_some() || self.hosts[to].wake == Some(at) {
                self.ethernet.now = at;
                self.ethernet.steps += 1;
                self.step(to, frame);
            }
        }
    }

    /// The whole of a host at an instant: it takes the frame that arrived, if one did, sends what is to be sent, and is
    /// polled again when it tells.
    fn step(&mut self, i: usize, frame: Option<Vec<u8>>) {
        let Network { hosts, flows, ethernet } = self;
        let (host, now) = (&mut hosts[i], ethernet.now);
        if let Some(frame) = frame {
            if let Some(reply) = host.iface.receive_frame(now, &frame, &mut host.sockets) {
                ethernet.transmit(i, reply);
            }
            while let Ok((got, meta)) = host.socket().recv() {
                let (sender, number) = count(flows, i, meta.endpoint.addr, got);
                let (time, h, of, octets) = (seconds(now), i + 1, sender + 1, got.len());
                println!("{time}  h{h} gets datagram {number} of h{of}, {octets} octets");
            }
        }
        let flow = &mut flows[i];
        if flow.next.is_some_and(|at| at <= now) {
            let to = (address_of(flow.to), PORT);
            host.socket().send_slice(&payload(i, flow.sent), to).unwrap();
            flow.sent += 1;
            flow.next = (flow.sent < DATAGRAMS).then_some(now + EVERY);
        }
        while let Some(frame) = host.iface.next_frame(now, &mut host.sockets) {
            ethernet.transmit(i, frame);
        }
        // Time goes on.
        let due = host.iface.poll_at(now, &host.sockets).map(|at| at.max(now + Duration::from_micros(1)));
        let wake = due.into_iter().chain(flow.next).min();
        self.plan_poll(i, wake);
    }

    fn plan_poll(&mut self, i: usize, wake: Option<Instant>) {
        if wake != self.hosts[i].wake {
            self.hosts[i].wake = wake;
            wake.into_iter().for_each(|at| self.ethernet.plan(at, i, None));
        }
    }

    fn print_tables(&self) {
        let row = |flow: &str, sent, delivered, repeated| {
            println!("{flow:<16} {sent:9} {delivered:9} {:9} {repeated:9}", sent - delivered);
        };
        println!("{:<16} {:>9} {:>9} {:>9} {:>9}", "flow", "sent", "delivered", "lost", "repeated");
        let mut all = (0, 0, 0);
        for (i, flow) in self.flows.iter().enumerate() {
            let delivered = flow.came.iter().filter(|times| **times > 0).count();
            let repeated = flow.came.iter().sum::<usize>() - delivered;
            row(&format!("h{} to h{}", i + 1, flow.to + 1), flow.sent, delivered, repeated);
            all = (all.0 + flow.sent, all.1 + delivered, all.2 + repeated);
        }
        let Ethernet { now, steps, copies, lost, repeated, .. } = self.ethernet;
        let given_up: u64 = self.hosts.iter().map(|host| host.iface.given_up_count()).sum();
        println!("link: {copies} copies, {lost} lost, {repeated} repeated");
        println!("hosts: {steps} steps until {}, {given_up} packets given up", seconds(now));
        row("all", all.0, all.1, all.2);
    }
}

/// An instant in seconds.
fn seconds(at: Instant) -> String {
    format!("{}.{:06}", at.secs(), at.total_micros() % 1_000_000)
}

fn main() {
    let mut arguments = std::env::args().skip(1).map(|text| text.parse().expect("a number"));
    let mut argument = |usual: u64| arguments.next().unwrap_or(usual);
    let (hosts, seed, lost, repeated) = (argument(20), argument(1), argument(100), argument(50));
    assert!((2..=50_000).contains(&hosts) && seed <= u32::MAX.into() && lost <= 1000 && repeated <= 1000);
    let mut network = Network::new(hosts as usize, seed, lost, repeated);
    network.run();
    network.print_tables();
}
