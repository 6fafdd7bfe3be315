//! Frames by hand, from the RFCs (826, 768, 791, 4443, 4861, 8200), and a host for tests.
#![allow(dead_code)]

pub mod dhcp;

use fumitorygate::time::Instant;
use fumitorygate::wire::{EthernetAddress, HardwareAddress, IpAddress, IpCidr, IpEndpoint, Ipv4Address, Ipv6Address};
use fumitorygate::{Error, FRAME_ROOM, Host, Rooms, Settings};

pub const OWN: [u8; 6] = [2, 0, 0, 0, 0, 1];

pub fn sum(octets: &[u8]) -> u16 {
    let mut total: u32 = 0;
    for two in octets.chunks(2) {
        total += u32::from(two[0]) << 8 | two.get(1).map_or(0, |low| u32::from(*low));
    }
    while total > 0xffff {
        total = (total & 0xffff) + (total >> 16);
    }
    !(total as u16)
}

pub fn ethernet(to: [u8; 6], from: [u8; 6], kind: u16, payload: &[u8]) -> Vec<u8> {
    [&to[..], &from[..], &kind.to_be_bytes(), payload].concat()
}

pub fn arp(operation: u16, from_link: [u8; 6], from: Ipv4Address, to_link: [u8; 6], to: Ipv4Address) -> Vec<u8> {
    let head = [0, 1, 8, 0, 6, 4];
    let body = [&head[..], &operation.to_be_bytes(), &from_link, &from.octets(), &to_link, &to.octets()].concat();
    ethernet(if operation == 1 { [0xff; 6] } else { to_link }, from_link, 0x0806, &body)
}

/// A packet of IPv4 with an identification, and its flags and offset in the header's own form.
pub fn ipv4(from: Ipv4Address, to: Ipv4Address, protocol: u8, ident: u16, flags: u16, payload: &[u8]) -> Vec<u8> {
    let mut packet = vec![0x45, 0];
    packet.extend(((20 + payload.len()) as u16).to_be_bytes());
    packet.extend(ident.to_be_bytes());
    packet.extend(flags.to_be_bytes());
    packet.extend([64, protocol, 0, 0]);
    packet.extend(from.octets());
    packet.extend(to.octets());
    let check = sum(&packet).to_be_bytes();
    packet[10..12].copy_from_slice(&check);
    packet.extend(payload);
    packet
}

pub fn udp4(from: Ipv4Address, to: Ipv4Address, ports: (u16, u16), payload: &[u8]) -> Vec<u8> {
    let length = (8 + payload.len()) as u16;
    let mut datagram =
        [&ports.0.to_be_bytes()[..], &ports.1.to_be_bytes(), &length.to_be_bytes(), &[0, 0], payload].concat();
    let pseudo = [&from.octets()[..], &to.octets(), &[0, 17], &length.to_be_bytes(), &datagram].concat();
    let check = match sum(&pseudo) {
        0 => 0xffff,
        other => other,
    };
    datagram[6..8].copy_from_slice(&check.to_be_bytes());
    ipv4(from, to, 17, 0, 0, &datagram)
}

/// A segment without options (RFC 9293, 3.1): its ports, sequence and acknowledgement number, flags and window.
pub fn tcp4(
    from: Ipv4Address,
    to: Ipv4Address,
    ports: (u16, u16),
    numbers: (u32, u32),
    flags: u8,
    window: u16,
    payload: &[u8],
) -> Vec<u8> {
    let mut segment = [&ports.0.to_be_bytes()[..], &ports.1.to_be_bytes()].concat();
    segment.extend(numbers.0.to_be_bytes());
    segment.extend(numbers.1.to_be_bytes());
    segment.extend([5 << 4, flags]);
    segment.extend(window.to_be_bytes());
    segment.extend([0; 4]);
    segment.extend(payload);
    let length = (segment.len() as u16).to_be_bytes();
    let check = sum(&[&from.octets()[..], &to.octets(), &[0, 6], &length, &segment].concat());
    segment[16..18].copy_from_slice(&check.to_be_bytes());
    ipv4(from, to, 6, 0, 0, &segment)
}

pub fn ipv6(from: Ipv6Address, to: Ipv6Address, next: u8, hop_limit: u8, payload: &[u8]) -> Vec<u8> {
    let mut packet = vec![0x60, 0, 0, 0];
    packet.extend((payload.len() as u16).to_be_bytes());
    packet.extend([next, hop_limit]);
    packet.extend(from.octets());
    packet.extend(to.octets());
    packet.extend(payload);
    packet
}

pub fn udp6(from: Ipv6Address, to: Ipv6Address, ports: (u16, u16), payload: &[u8]) -> Vec<u8> {
    let length = (8 + payload.len()) as u16;
    let mut datagram =
        [&ports.0.to_be_bytes()[..], &ports.1.to_be_bytes(), &length.to_be_bytes(), &[0, 0], payload].concat();
    let pseudo = [&from.octets()[..], &to.octets(), &[0, 0], &length.to_be_bytes(), &[0, 0, 0, 17], &datagram].concat();
    let check = match sum(&pseudo) {
        0 => 0xffff,
        other => other,
    };
    datagram[6..8].copy_from_slice(&check.to_be_bytes());
    ipv6(from, to, 17, 64, &datagram)
}

pub fn icmpv6(from: Ipv6Address, to: Ipv6Address, hop_limit: u8, mut message: Vec<u8>) -> Vec<u8> {
    message[2..4].fill(0);
    let length = (message.len() as u32).to_be_bytes();
    let check = sum(&[&from.octets()[..], &to.octets(), &length, &[0, 0, 0, 58], &message].concat());
    message[2..4].copy_from_slice(&check.to_be_bytes());
    ipv6(from, to, 58, hop_limit, &message)
}

/// A router advertisement with a prefix of 64 bits, to all nodes.
pub fn advertisement(router: Ipv6Address, lifetime: u16, prefix: Ipv6Address, valid: u32, preferred: u32) -> Vec<u8> {
    let mut message = vec![134, 0, 0, 0, 64, 0];
    message.extend(lifetime.to_be_bytes());
    message.extend([0; 8]);
    message.extend([3, 4, 64, 0x40]);
    message.extend(valid.to_be_bytes());
    message.extend(preferred.to_be_bytes());
    message.extend([0; 4]);
    message.extend(prefix.octets());
    let all = Ipv6Address::new(0xff02, 0, 0, 0, 0, 0, 0, 1);
    ethernet([0x33, 0x33, 0, 0, 0, 1], [2, 0, 0, 0, 0, 9], 0x86dd, &icmpv6(router, all, 255, message))
}

/// What a frame is, as far as these tests tell.
#[derive(Clone, Debug, PartialEq, Eq)]
pub enum Seen {
    /// An ARP request or a neighbour solicitation, for this address.
    Asks(IpAddress),
    /// A datagram of UDP over either family, to this hardware address.
    Datagram([u8; 6]),
    SolicitsRouters,
    Other(Vec<u8>),
}

pub fn seen(frame: &[u8]) -> Seen {
    let to: [u8; 6] = frame[..6].try_into().unwrap();
    match (u16::from_be_bytes([frame[12], frame[13]]), frame.get(20), frame.get(23)) {
        (0x0806, _, _) if frame[21] == 1 => Seen::Asks(IpAddress::v4(frame[38], frame[39], frame[40], frame[41])),
        (0x0800, _, Some(17)) => Seen::Datagram(to),
        (0x86dd, Some(17), _) => Seen::Datagram(to),
        (0x86dd, Some(58), _) if frame[54] == 135 => {
            let target: [u8; 16] = frame[62..78].try_into().unwrap();
            Seen::Asks(Ipv6Address::from(target).into())
        }
        (0x86dd, Some(58), _) if frame[54] == 133 => Seen::SolicitsRouters,
        _ => Seen::Other(frame.to_vec()),
    }
}

/// A host with its buffer, for one line a call.
pub struct Node {
    pub host: Host,
    out: [u8; FRAME_ROOM],
}

pub fn settings() -> Settings {
    let mut settings = Settings::new(HardwareAddress::Ethernet(EthernetAddress(OWN)));
    settings.random_seed = 1;
    settings
}

impl Node {
    pub fn new(addresses: &[IpCidr]) -> Node {
        Node::of(&settings(), addresses)
    }

    pub fn of(settings: &Settings, addresses: &[IpCidr]) -> Node {
        let mut host = Host::new(settings).unwrap();
        for cidr in addresses {
            host.add_address(*cidr).unwrap();
        }
        Node { host, out: [0; FRAME_ROOM] }
    }

    pub fn take(&mut self, now: Instant, frame: &[u8]) -> Option<Vec<u8>> {
        self.host.receive(now, frame, &mut self.out).unwrap().map(<[u8]>::to_vec)
    }

    /// All frames that are sent at an instant.
    pub fn frames(&mut self, now: Instant) -> Vec<Vec<u8>> {
        let mut all = Vec::new();
        while let Some(frame) = self.host.next(now, &mut self.out).unwrap() {
            all.push(frame.to_vec());
        }
        all
    }

    pub fn sends(&mut self, now: Instant) -> Vec<Seen> {
        self.frames(now).iter().map(|frame| seen(frame)).collect()
    }

    /// Sends a datagram from a socket of its own, which is closed then, and tells what is sent: what upstream's tests
    /// ask by `lookup`.
    pub fn lookup(&mut self, to: impl Into<IpAddress>, now: Instant) -> Vec<Seen> {
        let socket = self.host.udp_open(0x3000.into(), Rooms::new(1, 64)).unwrap();
        // Where no network and no route has it nothing is queued.
        let queued = self.host.udp_send(socket, IpEndpoint::new(to.into(), 9), b"lookup");
        assert!(matches!(queued, Ok(()) | Err(Error::NoRoute)), "{queued:?}");
        let all = self.sends(now);
        self.host.close(socket).unwrap();
        all
    }
}

pub fn millis(number: i64) -> Instant {
    Instant::from_millis(number)
}
