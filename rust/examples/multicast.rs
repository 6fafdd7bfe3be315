//! smoltcp's `multicast`: it joins 224.0.0.37, and beside smoltcp's also ff15::25, and prints the datagrams that come
//! to port 8123 and the packets of IGMP that a raw socket gets.
//!
//!   multicast DEVICE [SECONDS]
//!
//! The device is a TAP device of Linux. Own addresses: 192.168.69.1/24, fe80::1/64.
use fumitorygate::iface::{Config, Interface, SocketSet};
use fumitorygate::phy::{Medium, TunTapInterface, wait as phy_wait};
use fumitorygate::socket::{raw, udp};
use fumitorygate::time::{Duration, Instant};
use fumitorygate::wire::{
    EthernetAddress, IgmpPacket, IgmpRepr, IpAddress, IpCidr, IpProtocol, IpVersion, Ipv4Address, Ipv4Packet,
    Ipv6Address,
};
use std::os::unix::io::AsRawFd;

const MDNS_PORT: u16 = 8123;
const MDNS_GROUP: Ipv4Address = Ipv4Address::new(224, 0, 0, 37);
const GROUP_V6: Ipv6Address = Ipv6Address::new(0xff15, 0, 0, 0, 0, 0, 0, 0x25);

fn main() {
    let args: Vec<String> = std::env::args().skip(1).collect();
    let Some(name) = args.first() else { panic!("multicast DEVICE [SECONDS]") };
    let end = args.get(1).map(|text| Instant::now() + Duration::from_secs(text.parse().expect("seconds")));

    let mut device = TunTapInterface::new(name, Medium::Ethernet).expect("the device");
    let fd = device.as_raw_fd();

    // Create interface
    let mut config = Config::new(EthernetAddress([0x02, 0x00, 0x00, 0x00, 0x00, 0x01]).into());
    config.random_seed = std::process::id().into();
    let mut iface = Interface::new(config, &mut device, Instant::now());
    iface.update_ip_addrs(|ip_addrs| {
        ip_addrs.push(IpCidr::new(IpAddress::v4(192, 168, 69, 1), 24)).unwrap();
        ip_addrs.push(IpCidr::new(IpAddress::v6(0xfe80, 0, 0, 0, 0, 0, 0, 1), 64)).unwrap();
    });

    // Create sockets
    let mut sockets = SocketSet::new(vec![]);

    // Must fit at least one IGMP packet
    let raw_rx_buffer = raw::PacketBuffer::new(vec![raw::PacketMetadata::EMPTY; 2], vec![0; 512]);
    // Will not send IGMP
    let raw_tx_buffer = raw::PacketBuffer::new(vec![], vec![]);
    let raw_socket = raw::Socket::new(Some(IpVersion::Ipv4), Some(IpProtocol::Igmp), raw_rx_buffer, raw_tx_buffer);
    let raw_handle = sockets.add(raw_socket);

    // Must fit mDNS payload of at least one packet
    let udp_rx_buffer = udp::PacketBuffer::new(vec![udp::PacketMetadata::EMPTY; 4], vec![0; 1024]);
    // Will not send mDNS
    let udp_tx_buffer = udp::PacketBuffer::new(vec![udp::PacketMetadata::EMPTY], vec![0; 0]);
    let udp_socket = udp::Socket::new(udp_rx_buffer, udp_tx_buffer);
    let udp_handle = sockets.add(udp_socket);

    // Join a multicast group to receive mDNS traffic
    iface.join_multicast_group(MDNS_GROUP).unwrap();
    iface.join_multicast_group(GROUP_V6).unwrap();

    while end.is_none_or(|end| Instant::now() < end) {
        let timestamp = Instant::now();
        iface.poll(timestamp, &mut device, &mut sockets);

        let socket = sockets.get_mut::<raw::Socket>(raw_handle);
        if socket.can_recv() {
            // For display purposes only - normally we wouldn't process incoming IGMP packets in the application layer
            let payload = socket.recv().unwrap();
            let ipv4_packet = Ipv4Packet::new_checked(payload).unwrap();
            let igmp_packet = IgmpPacket::new_checked(ipv4_packet.payload()).unwrap();
            let igmp_repr = IgmpRepr::parse(&igmp_packet).unwrap();
            println!("IGMP packet: {igmp_repr:?}");
        }

        let socket = sockets.get_mut::<udp::Socket>(udp_handle);
        if !socket.is_open() {
            socket.bind(MDNS_PORT).unwrap()
        }
        while let Ok((data, from)) = socket.recv() {
            println!("mDNS traffic: {} from {from}", String::from_utf8_lossy(data));
        }

        let delay = iface.poll_delay(timestamp, &sockets);
        let rest = end.map(|end| end.max(timestamp) - timestamp);
        phy_wait(fd, [delay, rest].into_iter().flatten().min()).expect("wait error");
    }
}
