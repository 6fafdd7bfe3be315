//! A link of a gateway: its device, its interface, the neighbours that are known there, and the packets that wait for one.
use crate::transit;
use fumitorygate::iface::{Config, Interface, SocketSet};
use fumitorygate::phy::{Device, Medium, MemoryDevice, RxToken, TunTapInterface, TxToken};
use fumitorygate::socket::{icmp, raw};
use fumitorygate::time::{Duration, Instant};
use fumitorygate::wire::{EthernetAddress, HardwareAddress, IpAddress, IpCidr, IpProtocol, IpVersion, Ipv6Cidr};
use std::collections::BTreeMap;

/// Packets that wait, and neighbours that are asked for at a time.
const HELD: usize = 16;
const PROBES: usize = 3;

/// A packet that waits for its next hop, and the link that it came from.
pub struct Held {
    hop: IpAddress,
    pub from: usize,
    pub packet: Vec<u8>,
}

pub struct Link {
    pub device: TunTapInterface,
    pub iface: Interface,
    pub sockets: SocketSet<'static>,
    pub hardware: EthernetAddress,
    pub mtu: usize,
    errors: [fumitorygate::iface::SocketHandle; 2],
    known: BTreeMap<IpAddress, (EthernetAddress, Instant)>,
    held: Vec<Held>,
    /// Next hops that are asked for: the library has a packet for each, which is dropped when its hardware address is known.
    probes: Vec<(IpAddress, fumitorygate::iface::SocketHandle)>,
    /// Packets of others.
    pub sent: u64,
}

impl Link {
    pub fn new(name: &str, own: &str, number: u8, mtu: usize) -> Link {
        let device = TunTapInterface::new(name, Medium::Ethernet).expect("the device");
        let hardware = EthernetAddress([2, 0, 0, 0, 0, number]);
        let mut config = Config::new(hardware.into());
        config.random_seed = u64::from(std::process::id()) + u64::from(number);
        // A second for each socket that may wait.
        config.patience = Duration::from_secs(PROBES as u64 + 2);
        let mut shape = MemoryDevice::new(Medium::Ethernet, 14 + mtu);
        let mut iface = Interface::new(config, &mut shape, Instant::now());
        let prefix = Ipv6Cidr::new("fe80::".parse().unwrap(), 64);
        let link_local = Ipv6Cidr::from_link_prefix(&prefix, HardwareAddress::Ethernet(hardware)).unwrap();
        iface.update_ip_addrs(|list| {
            own.split(',').for_each(|word| list.push(word.parse().expect("OWN/PREFIX")).unwrap());
            list.push(IpCidr::Ipv6(link_local)).unwrap();
        });
        iface.set_any_ip(true);
        let mut sockets = SocketSet::of(&iface);
        let errors =
            [(IpVersion::Ipv4, IpProtocol::Icmp), (IpVersion::Ipv6, IpProtocol::Icmpv6)].map(|(version, kind)| {
                let [rx, tx] =
                    [raw::PacketBuffer::with_capacity(0, 0), raw::PacketBuffer::with_capacity(20, 20 * 1280)];
                sockets.add(raw::Socket::new(Some(version), Some(kind), rx, tx))
            });
        let (known, held, probes) = (BTreeMap::new(), Vec::new(), Vec::new());
        Link { device, iface, sockets, hardware, mtu, errors, known, held, probes, sent: 0 }
    }

    /// Sends an error by the raw socket of its family. Whether it was queued.
    pub fn send_error(&mut self, error: &[u8]) -> bool {
        let handle = self.errors[usize::from(!transit::is_ipv4(error))];
        self.sockets.get_mut::<raw::Socket>(handle).send_slice(error).is_ok()
    }

    /// A frame that came, if there is one.
    pub fn frame(&mut self) -> Option<Vec<u8>> {
        let (rx, _) = self.device.receive(Instant::now())?;
        Some(rx.consume(<[u8]>::to_vec))
    }

    fn transmit(device: &mut TunTapInterface, frame: &[u8]) {
        if let Some(tx) = device.transmit(Instant::now()) {
            tx.consume(frame.len(), |out| out.copy_from_slice(frame));
        }
    }

    /// Lets the interface have a frame, sends what is due, and remembers the neighbours that it learnt, each up to its end.
    pub fn deliver(&mut self, frame: &[u8]) {
        let now = Instant::now();
        if let Some(reply) = self.iface.receive_frame(now, frame, &mut self.sockets) {
            Link::transmit(&mut self.device, reply);
        }
        self.known.retain(|_, (_, end)| *end > now);
        for neighbor in self.iface.neighbors().iter() {
            self.known.insert(neighbor.protocol_addr, (neighbor.hardware_addr, neighbor.expires_at));
        }
        self.send_all();
    }

    /// Sends all that the interface has to send.
    pub fn send_all(&mut self) {
        while let Some(frame) = self.iface.next_frame(Instant::now(), &mut self.sockets) {
            Link::transmit(&mut self.device, frame);
        }
    }

    pub fn hardware_of(&self, hop: IpAddress) -> Option<EthernetAddress> {
        self.known.get(&hop).filter(|(_, end)| *end > Instant::now()).map(|(hardware, _)| *hardware)
    }

    /// Sends a packet to a hardware address, over IPv4 in pieces if it has to be.
    pub fn emit(&mut self, to: EthernetAddress, packet: &[u8]) {
        let kind = if transit::is_ipv4(packet) { [8, 0] } else { [0x86, 0xdd] };
        let cut = if packet.len() > self.mtu { transit::fragments(packet, self.mtu) } else { Vec::new() };
        for piece in cut.iter().map(Vec::as_slice).chain(cut.is_empty().then_some(packet)) {
            Link::transmit(&mut self.device, &[&to.0, &self.hardware.0, &kind[..], piece].concat());
        }
        self.sent += 1;
    }

    /// Asks for a next hop, unless that is done, or too many are asked for. Whether it is asked for.
    fn ask_for(&mut self, hop: IpAddress) -> bool {
        if self.probes.iter().any(|(other, _)| *other == hop) {
            return true;
        }
        if self.probes.len() == PROBES {
            return false;
        }
        let buffer = icmp::PacketBuffer::with_capacity(1, 64);
        let mut socket = icmp::Socket::new(buffer, buffer);
        socket.bind(icmp::Endpoint::Ident(0)).unwrap();
        let handle = self.sockets.add(socket);
        let echo = [if matches!(hop, IpAddress::Ipv4(_)) { 8 } else { 128 }, 0, 0, 0, 0, 0, 0, 0];
        self.probes.push((hop, handle));
        self.sockets.get_mut::<icmp::Socket>(handle).send_slice(&echo, hop).is_ok()
    }

    /// Keeps a packet until its next hop is known. Whether there was room.
    pub fn hold(&mut self, from: usize, hop: IpAddress, packet: &[u8]) -> bool {
        let has_room = self.held.len() < HELD && self.ask_for(hop);
        if has_room {
            self.held.push(Held { hop, from, packet: packet.to_vec() });
        }
        has_room
    }

    /// Looks at what is asked for. What waits for a neighbour that is known by now is sent; what waits for one that was given
    /// up is returned.
    pub fn look_at_probes(&mut self) -> Vec<Held> {
        let mut silent = Vec::new();
        for (hop, handle) in std::mem::take(&mut self.probes) {
            let hardware = self.hardware_of(hop);
            if hardware.is_none() && self.sockets.get_mut::<icmp::Socket>(handle).given_up().is_none() {
                self.probes.push((hop, handle));
                continue;
            }
            self.sockets.remove(handle);
            let (done, waiting) = std::mem::take(&mut self.held).into_iter().partition(|held| held.hop == hop);
            self.held = waiting;
            match hardware {
                Some(hardware) => done.iter().for_each(|held: &Held| self.emit(hardware, &held.packet)),
                None => silent.extend(done),
            }
        }
        silent
    }
}
