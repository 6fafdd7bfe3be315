//! What smoltcp's examples have beside the calls that those of `examples` have, from memory: the devices that their
//! options put over one another, each medium, frames that are printed, and clients of DHCP and DNS. It names smoltcp:
//! ../moved.sh builds and runs it.
use smoltcp::iface::{Config, Interface, PollResult, SocketSet, SocketStorage};
use smoltcp::phy::{
    Device, FaultInjector, Loopback, Medium, PcapMode, PcapWriter, RawSocket, RxToken, Tracer, TunTapInterface,
    wait as phy_wait,
};
use smoltcp::socket::{AnySocket, Socket, dhcpv4, dns, tcp, udp};
use smoltcp::storage::RingBuffer;
use smoltcp::time::{Duration, Instant};
use smoltcp::wire::{
    DnsQueryType, EthernetAddress, EthernetFrame, HardwareAddress, IpAddress, IpCidr, IpEndpoint, Ipv4Address, Ipv6Address,
    PrettyPrinter,
};
use std::cell::Cell;
use std::io;
use std::os::unix::io::AsRawFd;

/// A clock that is moved by hand, as `loopback` has it.
struct Clock(Cell<u64>);

impl Clock {
    fn advance(&self, duration: Duration) {
        self.0.set(self.0.get() + duration.total_millis());
    }

    fn elapsed(&self) -> Instant {
        Instant::from_millis(self.0.get() as i64)
    }
}

/// The devices that options put over one.
fn parse_middleware_options<D: Device>(device: D) -> FaultInjector<Tracer<PcapWriter<D, Box<dyn io::Write>>>> {
    let pcap_writer: Box<dyn io::Write> = Box::new(io::sink());
    let device = PcapWriter::new(device, pcap_writer, PcapMode::Both);
    let device = Tracer::new(device, |_timestamp, _printer| println!("{_printer}"));
    let mut device = FaultInjector::new(device, 0x5eed);
    device.set_drop_chance(0);
    device.set_corrupt_chance(0);
    device.set_max_packet_size(0);
    device.set_max_tx_rate(0);
    device.set_max_rx_rate(0);
    device.set_bucket_interval(Duration::from_millis(0));
    device
}

fn interface<D: Device>(device: &mut D, now: Instant) -> Interface {
    let mut config = match device.capabilities().medium {
        Medium::Ethernet => Config::new(EthernetAddress([0x02, 0x00, 0x00, 0x00, 0x00, 0x01]).into()),
        Medium::Ip => Config::new(HardwareAddress::Ip),
        Medium::Ieee802154 => todo!(),
    };
    config.random_seed = 7;
    let mut iface = Interface::new(config, device, now);
    iface.update_ip_addrs(|ip_addrs| {
        ip_addrs.push(IpCidr::new(IpAddress::v4(127, 0, 0, 1), 8)).unwrap();
        ip_addrs.push(IpCidr::new(IpAddress::v6(0xfe80, 0, 0, 0, 0, 0, 0, 1), 64)).unwrap();
    });
    iface.routes_mut().add_default_ipv4_route(Ipv4Address::new(127, 0, 0, 100)).unwrap();
    iface.routes_mut().add_default_ipv6_route(Ipv6Address::new(0xfe80, 0, 0, 0, 0, 0, 0, 0x100)).unwrap();
    iface
}

/// smoltcp's `tcpdump`.
fn tcpdump(name: &str) {
    let mut socket = RawSocket::new(name, Medium::Ethernet).unwrap();
    loop {
        phy_wait(socket.as_raw_fd(), None).unwrap();
        let (rx_token, _) = socket.receive(Instant::now()).unwrap();
        rx_token.consume(|buffer| println!("{}", PrettyPrinter::<EthernetFrame<&[u8]>>::new("", &buffer)));
    }
}

/// A datagram to itself, by a socket whose room the program lends.
fn datagram(device: &mut impl Device, iface: &mut Interface, clock: &Clock) {
    let (mut rx_meta, mut rx_data) = ([udp::PacketMetadata::EMPTY; 2], [0; 64]);
    let (mut tx_meta, mut tx_data) = ([udp::PacketMetadata::EMPTY; 2], [0; 64]);
    let rx_buffer = udp::PacketBuffer::new(&mut rx_meta[..], &mut rx_data[..]);
    let tx_buffer = udp::PacketBuffer::new(&mut tx_meta[..], &mut tx_data[..]);
    let mut storage: [SocketStorage; 2] = Default::default();
    let mut sockets = SocketSet::new(&mut storage[..]);
    let handle = sockets.add(udp::Socket::new(rx_buffer, tx_buffer));
    let socket = sockets.get_mut::<udp::Socket>(handle);
    socket.bind(6969).unwrap();
    let endpoint = IpEndpoint::new(iface.ipv4_addr().unwrap().into(), 6969);
    let payload = socket.send(5, endpoint).unwrap();
    payload.copy_from_slice(b"hello");
    while !sockets.get_mut::<udp::Socket>(handle).can_recv() && clock.elapsed() < Instant::from_secs(10) {
        if iface.poll(clock.elapsed(), device, &mut sockets) == PollResult::None {
            clock.advance(iface.poll_delay(clock.elapsed(), &sockets).unwrap_or(Duration::from_millis(1)));
        }
    }
    let socket = sockets.get_mut::<udp::Socket>(handle);
    assert_eq!(socket.recv().map(|(data, meta)| (data.to_vec(), meta.endpoint)), Ok((b"hello".to_vec(), endpoint)));
    assert!(sockets.iter().all(|(_, socket)| matches!(socket, Socket::Udp(_))));
}

/// Clients of DHCP and DNS, which get no answer, and a socket of TCP over a queue of octets.
fn clients(device: &mut impl Device, iface: &mut Interface, clock: &Clock) {
    let mut sockets = SocketSet::new(vec![]);
    let mut dhcp_socket = dhcpv4::Socket::new();
    dhcp_socket.set_max_lease_duration(Some(Duration::from_secs(10)));
    let dhcp_handle = sockets.add(dhcp_socket);
    let servers = &[Ipv4Address::new(8, 8, 4, 4).into(), Ipv4Address::new(8, 8, 8, 8).into()];
    let dns_handle = sockets.add(dns::Socket::new(servers, vec![]));
    let socket = sockets.get_mut::<dns::Socket>(dns_handle);
    let query = socket.start_query(iface.context(), "www.example.com", DnsQueryType::A).unwrap();
    let socket = tcp::Socket::new(RingBuffer::new(vec![0; 64]), RingBuffer::new(vec![0; 64]));
    let tcp_handle = sockets.add(socket.upcast());
    let socket = sockets.get_mut::<tcp::Socket>(tcp_handle);
    socket.connect(iface.context(), (Ipv4Address::new(127, 0, 0, 2), 80), 49500).unwrap();
    iface.poll(clock.elapsed(), device, &mut sockets);
    let socket = sockets.get_mut::<dns::Socket>(dns_handle);
    assert!(matches!(socket.get_query_result(query), Err(dns::GetQueryResultError::Pending)));
    let event = sockets.get_mut::<dhcpv4::Socket>(dhcp_handle).poll();
    assert!(matches!(event, Some(dhcpv4::Event::Deconfigured)));
}

fn main() {
    if let Some(name) = std::env::args().nth(1) {
        let device = TunTapInterface::new(&name, Medium::Ethernet).unwrap();
        let _ = (device.as_raw_fd(), parse_middleware_options(device));
        tcpdump(&name);
    }
    let clock = Clock(Cell::new(0));
    for medium in [Medium::Ethernet, Medium::Ip] {
        let mut device = parse_middleware_options(Loopback::new(medium));
        let mut iface = interface(&mut device, clock.elapsed());
        datagram(&mut device, &mut iface, &clock);
    }
    let mut device = parse_middleware_options(Loopback::new(Medium::Ethernet));
    let mut iface = interface(&mut device, clock.elapsed());
    clients(&mut device, &mut iface, &clock);
}
