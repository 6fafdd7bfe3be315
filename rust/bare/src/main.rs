//! A program without std and without a C library: a host sends a datagram to another one, over memory, and gets it
//! back. It has what firmware has to have: an allocator, `memcpy` and the like, a start, an end and a place to write
//! to, here two system calls of Linux.
//!
//! It prints `echoed: bare`, and ends with status 0.
#![no_std]
#![no_main]

extern crate alloc;

mod system;

use fumitorygate::iface::{Config, Interface, SocketHandle, SocketSet};
use fumitorygate::phy::{Medium, MemoryDevice};
use fumitorygate::socket::udp;
use fumitorygate::time::Instant;
use fumitorygate::wire::{EthernetAddress, IpAddress, IpCidr};

struct Node {
    device: MemoryDevice,
    iface: Interface,
    sockets: SocketSet<'static>,
    handle: SocketHandle,
}

impl Node {
    fn new(last: u8) -> Node {
        let mut device = MemoryDevice::new(Medium::Ethernet, 1514);
        let config = Config::new(EthernetAddress([2, 0, 0, 0, 0, last]).into());
        let mut iface = Interface::new(config, &mut device, Instant::ZERO);
        let cidr = IpCidr::new(IpAddress::v4(192, 168, 69, last), 24);
        iface.update_ip_addrs(|ip_addrs| ip_addrs.push(cidr).unwrap());
        let mut sockets = SocketSet::of(&iface);
        let buffer = udp::PacketBuffer::with_capacity(4, 4096);
        let mut socket = udp::Socket::new(buffer, buffer);
        socket.bind(7777).unwrap();
        let handle = sockets.add(socket);
        Node { device, iface, sockets, handle }
    }

    fn socket(&mut self) -> &mut udp::Socket<'static> {
        self.sockets.get_mut(self.handle)
    }
}

/// Polls both hosts, and carries their frames, until there are none.
fn settle(a: &mut Node, b: &mut Node) {
    loop {
        a.iface.poll(Instant::ZERO, &mut a.device, &mut a.sockets);
        b.iface.poll(Instant::ZERO, &mut b.device, &mut b.sockets);
        if a.device.sent.is_empty() && b.device.sent.is_empty() {
            break;
        }
        b.device.incoming.append(&mut a.device.sent);
        a.device.incoming.append(&mut b.device.sent);
    }
}

fn run() {
    let (mut a, mut b) = (Node::new(1), Node::new(2));
    a.socket().send_slice(b"bare", (IpAddress::v4(192, 168, 69, 2), 7777)).unwrap();
    settle(&mut a, &mut b);
    let (data, from) = b.socket().recv().unwrap();
    let data = data.to_vec();
    b.socket().send_slice(&data, from).unwrap();
    settle(&mut a, &mut b);
    let (echo, _) = a.socket().recv().unwrap();
    system::print(b"echoed: ");
    system::print(echo);
    system::print(b"\n");
}
