//! Packets that sockets lend. What is expected is what `send_slice` does with the same octets, which the proved library
//! decides.
#![cfg(feature = "alloc")]
mod common;

use common::{OWN, arp};
use fumitorygate::ChecksumCapabilities;
use fumitorygate::iface::{Config, Interface, SocketSet};
use fumitorygate::phy::{Medium, MemoryDevice};
use fumitorygate::socket::{SendError, icmp, raw, udp};
use fumitorygate::time::Instant;
use fumitorygate::wire::{
    EthernetAddress, HardwareAddress, Icmpv4Packet, Icmpv4Repr, IpAddress, IpEndpoint, IpProtocol, IpVersion,
    Ipv4Address,
};

const SELF: Ipv4Address = Ipv4Address::new(192, 168, 69, 1);
const PEER: Ipv4Address = Ipv4Address::new(192, 168, 69, 2);
const PEER_LINK: [u8; 6] = [2, 0, 0, 0, 0, 2];

fn interface(medium: Medium, mtu: usize) -> (MemoryDevice, Interface, SocketSet<'static>) {
    let mut device = MemoryDevice::new(medium, mtu);
    let own = match medium {
        Medium::Ethernet => EthernetAddress(OWN).into(),
        _ => HardwareAddress::Ip,
    };
    let mut iface = Interface::new(Config::new(own), &mut device, Instant::ZERO);
    iface.update_ip_addrs(|list| {
        list.push("192.168.69.1/24".parse().unwrap()).unwrap();
        list.push("fe80::1/64".parse().unwrap()).unwrap();
    });
    if medium == Medium::Ethernet {
        device.incoming.push_back(arp(1, PEER_LINK, PEER, [0; 6], SELF));
    }
    let mut sockets = SocketSet::of(&iface);
    iface.poll(Instant::ZERO, &mut device, &mut sockets);
    device.sent.clear();
    (device, iface, sockets)
}

fn buffer(packets: usize, octets: usize) -> udp::PacketBuffer<'static> {
    udp::PacketBuffer::with_capacity(packets, octets)
}

/// What becomes of so many octets to an end, lent or not, and how many wait then.
fn outcome(
    link: (Medium, usize),
    kind: &str,
    size: usize,
    end: IpEndpoint,
    lends: bool,
) -> (Result<(), SendError>, usize) {
    let (_, _, mut sockets) = interface(link.0, link.1);
    let (rx, tx, data) = (buffer(1, 0), buffer(2, 5000), vec![7; size]);
    let write = |lent: &mut [u8]| lent.copy_from_slice(&data);
    match kind {
        "UDP" => {
            let handle = sockets.add(udp::Socket::new(rx, tx));
            let socket = sockets.get_mut::<udp::Socket>(handle);
            socket.bind(7).unwrap();
            let done = if lends { socket.send(size, end).map(write) } else { socket.send_slice(&data, end) };
            (done, socket.send_queue())
        }
        "ICMP" => {
            let handle = sockets.add(icmp::Socket::new(rx, tx));
            let socket = sockets.get_mut::<icmp::Socket>(handle);
            socket.bind(icmp::Endpoint::Ident(1)).unwrap();
            let done = if lends { socket.send(size, end.addr).map(write) } else { socket.send_slice(&data, end.addr) };
            (done, socket.send_queue())
        }
        _ => {
            let handle = sockets.add(raw::Socket::new(IpVersion::Ipv4, IpProtocol::Unknown(253), rx, tx));
            let socket = sockets.get_mut::<raw::Socket>(handle);
            let done = if lends { socket.send(size).map(write) } else { socket.send_slice(&data) };
            (done, socket.send_queue())
        }
    }
}

/// For each size around each limit, and each kind of destination, `send` refuses what `send_slice` refuses.
#[test]
fn what_is_lent_is_what_would_be_queued() {
    let ends: [(IpAddress, u16); 5] = [
        (IpAddress::Ipv4(PEER), 9),
        (IpAddress::Ipv4(PEER), 0),
        ("0.0.0.0".parse().unwrap(), 9),
        ("fe80::2".parse().unwrap(), 9),
        ("::".parse().unwrap(), 9),
    ];
    let links = [(Medium::Ethernet, 1514), (Medium::Ethernet, 9000), (Medium::Ethernet, 590), (Medium::Ip, 576)];
    // The octets of packets of 576, 1500, 1514, 4096 and 5000, without a header of 20, 28, 40 or 48.
    let limits =
        [576, 1500, 1514, 4096, 5000].map(|all| [0, 20, 28, 40, 48].map(|header: usize| all - header)).concat();
    for link in links {
        for size in limits.iter().flat_map(|limit| [limit - 1, *limit, limit + 1]).chain([0]) {
            for (kind, end) in ["UDP", "ICMP", "raw"].into_iter().flat_map(|kind| ends.map(|end| (kind, end.into()))) {
                let (lent, sent) = (outcome(link, kind, size, end, true), outcome(link, kind, size, end, false));
                assert_eq!(lent, sent, "{kind}, {size} octets to {end}, {link:?}");
            }
        }
    }
}

/// smoltcp's documentation of `send`: a socket that isn't bound, and a queue without room.
#[test]
fn nothing_is_lent_where_nothing_can_be_sent() {
    let (_, _, mut sockets) = interface(Medium::Ethernet, 1514);
    let end = (IpAddress::Ipv4(PEER), 9);
    let mut socket = udp::Socket::new(buffer(1, 100), buffer(2, 100));
    assert_eq!(socket.send(1, end).err(), Some(SendError::Unaddressable));
    socket.bind(7).unwrap();
    assert_eq!(socket.send(101, end).err(), Some(SendError::BufferFull));
    assert_eq!(socket.send(1, (PEER, 0)).err(), Some(SendError::Unaddressable));
    let _ = socket.send(60, end).unwrap();
    assert_eq!(socket.send(41, end).err(), Some(SendError::BufferFull));
    let handle = sockets.add(socket);
    let socket = sockets.get_mut::<udp::Socket>(handle);
    assert_eq!(socket.send(101, end).err(), Some(SendError::BufferFull));
    assert_eq!(socket.send(41, end).err(), Some(SendError::BufferFull));
    let _ = socket.send(0, end).unwrap();
    assert_eq!(socket.send(0, end).err(), Some(SendError::BufferFull));
    assert_eq!(socket.send_queue(), 60);
}

/// What is written into what is lent goes out, and what isn't is zeros.
#[test]
fn what_is_lent_is_sent() {
    let (mut device, mut iface, mut sockets) = interface(Medium::Ethernet, 1514);
    let mut socket = icmp::Socket::new(buffer(1, 100), buffer(2, 100));
    socket.bind(icmp::Endpoint::Ident(0x22b)).unwrap();
    let handle = sockets.add(socket);
    let repr = Icmpv4Repr::EchoRequest { ident: 0x22b, seq_no: 3, data: b"ping" };
    let socket = sockets.get_mut::<icmp::Socket>(handle);
    let lent = socket.send(repr.buffer_len(), PEER.into()).unwrap();
    let mut packet = Icmpv4Packet::new_unchecked(lent);
    repr.emit(&mut packet, &ChecksumCapabilities::ignored());
    let lent = sockets.get_mut::<icmp::Socket>(handle).send(12, PEER.into()).unwrap();
    lent[..2].copy_from_slice(&[8, 0]);
    iface.poll(Instant::ZERO, &mut device, &mut sockets);
    iface.poll(Instant::ZERO, &mut device, &mut sockets);
    let caps = ChecksumCapabilities::default();
    let read = |frame: &[u8]| match Icmpv4Repr::parse(&Icmpv4Packet::new_checked(&frame[34..]).unwrap(), &caps) {
        Ok(Icmpv4Repr::EchoRequest { ident, seq_no, data }) => (ident, seq_no, data.to_vec()),
        other => panic!("{other:?}"),
    };
    let sent: Vec<_> = device.sent.iter().map(|frame| read(frame)).collect();
    assert_eq!(sent, [(0x22b, 3, b"ping".to_vec()), (0, 0, vec![0; 4])]);
}
