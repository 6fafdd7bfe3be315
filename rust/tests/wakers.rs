//! Tasks that sockets wake. What is expected comes from smoltcp's documentation of these calls.
#![cfg(feature = "async")]
mod common;

use common::{OWN, arp, ethernet, udp4};
use fumitorygate::iface::{Config, Interface, SocketSet};
use fumitorygate::phy::{Medium, MemoryDevice};
use fumitorygate::socket::udp;
use fumitorygate::time::Instant;
use fumitorygate::wire::{EthernetAddress, IpAddress, Ipv4Address};
use std::sync::Arc;
use std::sync::atomic::{AtomicUsize, Ordering::SeqCst};
use std::task::{Wake, Waker};

const SELF: Ipv4Address = Ipv4Address::new(192, 168, 69, 1);
const PEER: Ipv4Address = Ipv4Address::new(192, 168, 69, 2);
const PEER_LINK: [u8; 6] = [2, 0, 0, 0, 0, 2];

/// How often a task was woken.
#[derive(Default)]
struct Count(AtomicUsize);

impl Wake for Count {
    fn wake(self: Arc<Count>) {
        self.0.fetch_add(1, SeqCst);
    }
}

fn task() -> (Arc<Count>, Waker) {
    let count = Arc::new(Count::default());
    (count.clone(), count.into())
}

impl Count {
    fn get(&self) -> usize {
        self.0.load(SeqCst)
    }
}

fn datagram() -> Vec<u8> {
    ethernet(OWN, PEER_LINK, 0x0800, &udp4(PEER, SELF, (9, 7), b"data"))
}

struct World {
    device: MemoryDevice,
    iface: Interface,
    sockets: SocketSet<'static>,
}

impl World {
    fn poll(&mut self) {
        self.iface.poll(Instant::ZERO, &mut self.device, &mut self.sockets);
    }
}

/// An interface that knows its peer, with a socket whose queues hold one packet.
fn world() -> (World, fumitorygate::iface::SocketHandle) {
    let mut device = MemoryDevice::new(Medium::Ethernet, 1514);
    let mut iface = Interface::new(Config::new(EthernetAddress(OWN).into()), &mut device, Instant::ZERO);
    iface.update_ip_addrs(|list| list.push("192.168.69.1/24".parse().unwrap()).unwrap());
    let mut sockets = SocketSet::of(&iface);
    let buffer = udp::PacketBuffer::with_capacity(1, 512);
    let mut socket = udp::Socket::new(buffer, buffer);
    socket.bind(7).unwrap();
    let handle = sockets.add(socket);
    device.incoming.push_back(arp(1, PEER_LINK, PEER, [0; 6], SELF));
    let mut world = World { device, iface, sockets };
    world.poll();
    (world, handle)
}

#[test]
fn a_datagram_wakes_its_reader_once() {
    let (mut world, handle) = world();
    let (count, waker) = task();
    world.sockets.get_mut::<udp::Socket>(handle).register_recv_waker(&waker);
    world.poll();
    assert_eq!(count.get(), 0);
    world.device.incoming.push_back(datagram());
    world.poll();
    assert_eq!(count.get(), 1);
    world.poll();
    assert_eq!(count.get(), 1);
    assert!(world.sockets.get_mut::<udp::Socket>(handle).recv().is_ok());
    world.sockets.get_mut::<udp::Socket>(handle).register_recv_waker(&waker);
    world.poll();
    assert_eq!(count.get(), 1);
    world.iface.receive_frame(Instant::ZERO, &datagram(), &mut world.sockets);
    assert_eq!(count.get(), 2);
}

#[test]
fn room_wakes_a_writer() {
    let (mut world, handle) = world();
    let (count, waker) = task();
    let socket = world.sockets.get_mut::<udp::Socket>(handle);
    socket.send_slice(b"one", (IpAddress::Ipv4(PEER), 9)).unwrap();
    assert!(!socket.can_send());
    socket.register_send_waker(&waker);
    assert_eq!(count.get(), 0);
    assert!(world.iface.next_frame(Instant::ZERO, &mut world.sockets).is_some());
    assert_eq!(count.get(), 1);
    assert!(world.sockets.get_mut::<udp::Socket>(handle).can_send());
}

#[test]
fn a_socket_that_is_bound_or_closed_wakes_both() {
    let (mut world, handle) = world();
    let (count, waker) = task();
    let socket = world.sockets.get_mut::<udp::Socket>(handle);
    let register = |socket: &mut udp::Socket| {
        socket.register_recv_waker(&waker);
        socket.register_send_waker(&waker);
    };
    register(socket);
    socket.close();
    assert_eq!(count.get(), 2);
    register(socket);
    assert!(socket.bind(0).is_err());
    assert_eq!(count.get(), 2);
    socket.bind(8).unwrap();
    assert_eq!(count.get(), 4);
}

#[test]
fn the_last_task_alone_is_woken() {
    let (mut world, handle) = world();
    let ((first, first_waker), (second, second_waker)) = (task(), task());
    let socket = world.sockets.get_mut::<udp::Socket>(handle);
    socket.register_recv_waker(&first_waker);
    socket.register_recv_waker(&second_waker);
    world.device.incoming.push_back(datagram());
    world.poll();
    assert_eq!((first.get(), second.get()), (0, 1));
}
