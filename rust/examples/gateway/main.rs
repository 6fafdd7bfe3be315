//! A gateway of two TAP devices of Linux: it hands packets of IPv4 and IPv6 from one link to the other.
//!
//!   gateway DEVICE OWN/PREFIX[,OWN/PREFIX..] DEVICE OWN/PREFIX[,..] [-m OCTETS] [-r NETWORK/PREFIX,ROUTER]..
//!
//! As `c/examples/gateway.c` of the repository, whose head and `docs/SERVICES.md` say what it does, and why packets in transit
//! don't go by raw sockets. Each link has an interface: it answers for the gateway's own addresses, asks for neighbours, and
//! sends the errors.
mod link;
mod transit;

use fumitorygate::phy::wait as phy_wait;
use fumitorygate::time::{Duration, Instant};
use fumitorygate::wire::{IpAddress, IpCidr};
use link::Link;
use std::os::unix::io::AsRawFd;
use std::sync::mpsc::sync_channel;
use transit::Kind;

/// How many errors are sent in a row, and the time for each.
const BURST: i64 = 10;
const GAP: i64 = 10_000;

/// Where a packet goes: its next hop, by which link; to an own address; to a network's first or last address.
#[derive(Clone, Copy)]
struct Route {
    hop: IpAddress,
    link: usize,
    is_own: bool,
    is_end: bool,
}

struct Gateway {
    links: [Link; 2],
    /// When errors have been sent at their rate, in microseconds.
    next_error: i64,
}

impl Gateway {
    /// Where a packet to an address goes. Own networks come before routes, as in the library.
    fn route(&self, to: IpAddress) -> Option<Route> {
        let now = Instant::now();
        let mut best: Option<(u32, Route)> = None;
        let mut weigh = |weight: u32, route: Route| {
            if best.is_none_or(|(other, _)| weight > other) {
                best = Some((weight, route));
            }
        };
        for (link, one) in self.links.iter().enumerate() {
            for own in one.iface.ip_addrs().iter().filter(|own| own.contains_addr(&to)) {
                let (is_own, is_end) = (own.address() == to, transit::is_end_of_network(to, *own));
                let weight = if is_own { 1000 } else { 500 + u32::from(own.prefix_len()) };
                weigh(weight, Route { hop: to, link, is_own, is_end });
            }
            for route in one.iface.routes().iter().filter(|route| route.cidr.contains_addr(&to)) {
                if route.expires_at.is_none_or(|end| end >= now) {
                    let route_to = Route { hop: route.via_router, link, is_own: false, is_end: false };
                    weigh(route.cidr.prefix_len().into(), route_to);
                }
            }
        }
        best.map(|(_, route)| route)
    }

    /// Sends an error about a packet to its source, by the link that it came from, unless too many were sent.
    fn tell(&mut self, from: usize, packet: &[u8], kind: Kind, mtu: usize) {
        let now = Instant::now().total_micros();
        let (source, _) = transit::ends(packet);
        if !transit::may_be_told(packet) || self.next_error > now + (BURST - 1) * GAP {
            return;
        }
        let link = &mut self.links[from];
        let Some(own) = link.iface.get_source_address(&source) else { return };
        if link.send_error(&transit::error(own, packet, kind, mtu)) {
            self.next_error = self.next_error.max(now) + GAP;
        }
    }

    /// Forwards a packet that isn't for the gateway, or drops it, with an error where one is due.
    fn forward(&mut self, from: usize, packet: &mut [u8], way: Option<Route>) {
        let (source, _) = transit::ends(packet);
        if transit::is_link_local(source) && !transit::is_ipv4(packet) {
            return self.tell(from, packet, transit::BEYOND_SCOPE, 0);
        }
        let back = self.route(source).filter(|back| back.link == from && !back.is_own && !back.is_end);
        if !transit::is_forwardable(source) || back.is_none() || transit::has_source_route(packet) {
            return;
        }
        let Some(way) = way else { return self.tell(from, packet, transit::NO_ROUTE, 0) };
        let mtu = self.links[way.link].mtu;
        if transit::hop_limit(packet) <= 1 {
            return self.tell(from, packet, transit::EXPIRED, 0);
        }
        if packet.len() > mtu && !transit::may_be_cut(packet) {
            return self.tell(from, packet, transit::TOO_LONG, mtu);
        }
        transit::lower_hop_limit(packet);
        let out = &mut self.links[way.link];
        match out.hardware_of(way.hop) {
            Some(hardware) => out.emit(hardware, packet),
            None => _ = out.hold(from, way.hop, packet),
        }
    }

    /// Takes a frame: the interface of its link gets it, unless it is for the gateway's hardware address, and has a packet to
    /// another host beyond the link.
    fn take(&mut self, from: usize, mut frame: Vec<u8>) {
        let kind = frame.get(12..14).map(|kind| [kind[0], kind[1]]);
        let is_ours = frame.starts_with(&self.links[from].hardware.0);
        let len = frame.get(14..).and_then(transit::packet_len).filter(|_| is_ours);
        if let Some(len) = len.filter(|_| kind == Some(if frame[14] >> 4 == 4 { [8, 0] } else { [0x86, 0xdd] })) {
            let packet = &mut frame[14..14 + len];
            let (_, to) = transit::ends(packet);
            let way = self.route(to);
            if transit::is_forwardable(to) && !way.is_some_and(|way| way.is_own || way.is_end) {
                return self.forward(from, packet, way);
            }
        }
        self.links[from].deliver(&frame);
    }

    /// Sends what is due, and takes frames, some of a link at a time. The time until something is due.
    fn serve(&mut self) -> Option<Duration> {
        for link in 0..2 {
            for _ in 0..16 {
                let Some(frame) = self.links[link].frame() else { break };
                self.take(link, frame);
            }
        }
        for link in 0..2 {
            self.links[link].send_all();
            for held in self.links[link].look_at_probes() {
                self.tell(held.from, &held.packet, transit::NO_NEIGHBOR, 0);
            }
        }
        let now = Instant::now();
        self.links.iter_mut().filter_map(|link| link.iface.poll_delay(now, &link.sockets)).min()
    }

    /// Lets the addresses of the other link count as own ones: each is routed to the interface itself.
    fn share_addresses(&mut self) {
        for link in 0..2 {
            let own = self.links[link].iface.ip_addrs();
            for other in self.links[1 - link].iface.ip_addrs().iter().map(IpCidr::address) {
                let by = own.iter().map(IpCidr::address).find(|own| own.version() == other.version());
                if let Some(by) = by.filter(|_| !transit::is_link_local(other)) {
                    let bits = if matches!(other, IpAddress::Ipv4(_)) { 32 } else { 128 };
                    self.links[link].iface.routes_mut().add(IpCidr::new(other, bits), by).expect("room for a route");
                }
            }
        }
    }

    /// Adds a route, as 10.3.0.0/16,10.2.0.9, to the link that its router is on.
    fn add_route(&mut self, text: &str) {
        let (network, router) = text.split_once(',').expect("NETWORK/PREFIX,ROUTER");
        let router = router.parse().expect("a router");
        let way = self.route(router).filter(|way| !way.is_own).expect("a router on a link");
        let routes = &mut self.links[way.link].iface;
        routes.routes_mut().add(network.parse().expect("a network"), router).expect("room for a route");
    }
}

fn main() {
    let (mut words, mut routes, mut mtu) = (Vec::new(), Vec::new(), 1500);
    let mut args = std::env::args().skip(1);
    while let Some(word) = args.next() {
        match &word[..] {
            "-m" => mtu = args.next().and_then(|text| text.parse().ok()).expect("-m OCTETS"),
            "-r" => routes.push(args.next().expect("-r NETWORK/PREFIX,ROUTER")),
            _ => words.push(word),
        }
    }
    assert!((1280..=1500).contains(&mtu), "-m takes 1280 to 1500");
    let [one, one_own, two, two_own] = &words[..] else { panic!("gateway DEVICE OWN/PREFIX DEVICE OWN/PREFIX") };
    let links = [Link::new(one, one_own, 1, 1500), Link::new(two, two_own, 2, mtu)];
    let mut gateway = Gateway { links, next_error: 0 };
    gateway.share_addresses();
    routes.iter().for_each(|text| gateway.add_route(text));
    // A thread for each device says when a frame comes. It goes on when that was heard, so it says so at most twice.
    let (sender, frames) = sync_channel(0);
    for fd in gateway.links.each_ref().map(|link| link.device.as_raw_fd()) {
        let sender = sender.clone();
        std::thread::spawn(move || while phy_wait(fd, None).is_ok() && sender.send(()).is_ok() {});
    }
    loop {
        let delay = gateway.serve().map_or(u64::MAX / 2, |delay| delay.total_micros());
        let _ = frames.recv_timeout(std::time::Duration::from_micros(delay.min(1_000_000)));
    }
}
