//! Who has an address: each is asked for by ARP (RFC 826) over IPv4, by a neighbour solicitation (RFC 4861 7.2.2) over IPv6.
//!
//!   discover DEVICE OWN/PREFIX [-n COUNT] ADDRESS..
//!
//! The device is a TAP device of Linux. An address is asked for COUNT times at most, three unless told, a second apart. The
//! requests are the interface's own: a packet is queued for the address, and dropped when the neighbour is known, so just
//! requests are sent. It fails unless each address is answered for.
use fumitorygate::iface::{Config, Interface, SocketSet};
use fumitorygate::phy::{Medium, TunTapInterface, wait as phy_wait};
use fumitorygate::socket::icmp;
use fumitorygate::time::{Duration, Instant};
use fumitorygate::wire::{EthernetAddress, IpAddress, IpCidr};
use std::os::unix::io::AsRawFd;
use std::process::ExitCode;

struct Discovery {
    device: TunTapInterface,
    iface: Interface,
    sockets: SocketSet<'static>,
    count: u32,
}

impl Discovery {
    fn new(name: &str, own: IpCidr, count: u32) -> Discovery {
        let mut device = TunTapInterface::new(name, Medium::Ethernet).expect("the device");
        let mut config = Config::new(EthernetAddress([2, 0, 0, 0, 0, 5]).into());
        config.random_seed = std::process::id().into();
        // Longer than a packet waits here, so that none is given up.
        config.patience = Duration::from_secs(u64::from(count) + 2);
        let mut iface = Interface::new(config, &mut device, Instant::now());
        iface.update_ip_addrs(|list| list.push(own).unwrap());
        let sockets = SocketSet::new(vec![]);
        Discovery { device, iface, sockets, count }
    }

    /// The hardware address at which an address is known.
    fn known(&self, address: IpAddress) -> Option<EthernetAddress> {
        let found = self.iface.neighbors().iter().find(|neighbor| neighbor.protocol_addr == address).copied();
        found.filter(|neighbor| neighbor.expires_at > Instant::now()).map(|neighbor| neighbor.hardware_addr)
    }

    /// Takes frames until the address is known, or an instant. A frame is looked at before anything is sent.
    fn wait_for(&mut self, address: IpAddress, end: Instant) -> Option<EthernetAddress> {
        loop {
            let now = Instant::now();
            self.iface.poll_ingress_single(now, &mut self.device, &mut self.sockets);
            let known = self.known(address);
            if known.is_some() || now >= end {
                return known;
            }
            self.iface.poll_egress(now, &mut self.device, &mut self.sockets);
            let due = self.iface.poll_at(now, &self.sockets).map_or(end, |at| at.min(end));
            phy_wait(self.device.as_raw_fd(), Some(due.max(now) - now)).expect("wait error");
        }
    }

    /// Asks for an address, and prints who has it. Whether somebody does.
    fn ask(&mut self, address: IpAddress) -> bool {
        let buffer = icmp::PacketBuffer::with_capacity(1, 64);
        let mut socket = icmp::Socket::new(buffer, buffer);
        socket.bind(icmp::Endpoint::Ident(0)).unwrap();
        let handle = self.sockets.add(socket);
        let echo = [if matches!(address, IpAddress::Ipv4(_)) { 8 } else { 128 }, 0, 0, 0, 0, 0, 0, 0];
        self.sockets.get_mut::<icmp::Socket>(handle).send_slice(&echo, address).unwrap();
        let begin = Instant::now();
        let known = self.wait_for(address, begin + Duration::from_secs(self.count.into()));
        self.sockets.remove(handle);
        match known {
            Some(hardware) => println!("{address} is at {hardware}: {} us", (Instant::now() - begin).total_micros()),
            None => println!("{address}: no answer"),
        }
        known.is_some()
    }
}

fn main() -> ExitCode {
    let mut args: Vec<String> = std::env::args().skip(1).collect();
    let mut count = 3;
    if let Some(at) = args.iter().position(|word| word == "-n") {
        count = args.get(at + 1).and_then(|text| text.parse().ok()).expect("-n COUNT");
        args.drain(at..at + 2);
    }
    let [name, own, addresses @ ..] = &args[..] else { panic!("discover DEVICE OWN/PREFIX [-n COUNT] ADDRESS..") };
    let mut discovery = Discovery::new(name, own.parse().expect("an address and its prefix"), count);
    let mut silent = 0;
    for address in addresses {
        silent += usize::from(!discovery.ask(address.parse().expect("an address")));
    }
    println!("{} asked for, {} answered", addresses.len(), addresses.len() - silent);
    if silent == 0 { ExitCode::SUCCESS } else { ExitCode::FAILURE }
}
