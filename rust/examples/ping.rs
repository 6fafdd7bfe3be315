//! smoltcp's `ping`: echo requests to a host over either version of IP, and what came back.
//!
//!   ping DEVICE ADDRESS [-c COUNT] [-i INTERVAL_MS] [-t TIMEOUT_S]
//!
//! The device is a TAP device of Linux. Own addresses: 192.168.69.1/24, fdaa::1/64, fe80::1/64.
use fumitorygate::iface::{Config, Interface, SocketSet};
use fumitorygate::phy::{Device, Medium, TunTapInterface, wait as phy_wait};
use fumitorygate::socket::icmp;
use fumitorygate::time::{Duration, Instant};
use fumitorygate::wire::{
    EthernetAddress, Icmpv4Packet, Icmpv4Repr, Icmpv6Packet, Icmpv6Repr, IpAddress, IpCidr, Ipv4Address, Ipv6Address,
};
use std::collections::BTreeMap;
use std::os::unix::io::AsRawFd;

const IDENT: u16 = 0x22b;

// As smoltcp's.
macro_rules! send_icmp_ping {
    ( $repr_type:ident, $packet_type:ident, $ident:expr, $seq_no:expr,
      $echo_payload:expr, $socket:expr, $remote_addr:expr ) => {{
        let icmp_repr = $repr_type::EchoRequest { ident: $ident, seq_no: $seq_no, data: &$echo_payload };
        let icmp_payload = $socket.send(icmp_repr.buffer_len(), $remote_addr).unwrap();
        let icmp_packet = $packet_type::new_unchecked(icmp_payload);
        (icmp_repr, icmp_packet)
    }};
}

macro_rules! get_icmp_pong {
    ( $repr_type:ident, $repr:expr, $payload:expr, $waiting_queue:expr, $remote_addr:expr,
      $timestamp:expr, $received:expr ) => {{
        if let $repr_type::EchoReply { seq_no, data, .. } = $repr {
            if $waiting_queue.contains_key(&seq_no) {
                let sent_at = Instant::from_micros(i64::from_be_bytes(data[..8].try_into().unwrap()));
                let time = ($timestamp - sent_at).total_micros();
                println!("{} bytes from {}: icmp_seq={seq_no}, time={time}us", data.len(), $remote_addr);
                $waiting_queue.remove(&seq_no);
                $received += 1;
            }
        }
    }};
}

fn main() {
    let args: Vec<String> = std::env::args().skip(1).collect();
    let [name, address, ..] = &args[..] else {
        panic!("ping DEVICE ADDRESS [-c COUNT] [-i INTERVAL_MS] [-t TIMEOUT_S]")
    };
    let option = |name: &str, default: u64| {
        let at = args.iter().position(|word| word == name);
        at.map_or(default, |at| args[at + 1].parse().expect("a number"))
    };
    let remote_addr: IpAddress = address.parse().expect("an address");
    let count = u16::try_from(option("-c", 4)).ok().filter(|count| *count > 0).expect("COUNT is from 1 to 65535");
    let timeout = Duration::from_secs(option("-t", 5));
    let interval = Duration::from_millis(option("-i", 1000));

    let mut device = TunTapInterface::new(name, Medium::Ethernet).expect("the device");
    let fd = device.as_raw_fd();

    // Create interface
    let mut config = Config::new(EthernetAddress([0x02, 0x00, 0x00, 0x00, 0x00, 0x02]).into());
    config.random_seed = std::process::id().into();
    let mut iface = Interface::new(config, &mut device, Instant::now());
    iface.update_ip_addrs(|ip_addrs| {
        ip_addrs.push(IpCidr::new(IpAddress::v4(192, 168, 69, 1), 24)).unwrap();
        ip_addrs.push(IpCidr::new(IpAddress::v6(0xfdaa, 0, 0, 0, 0, 0, 0, 1), 64)).unwrap();
        ip_addrs.push(IpCidr::new(IpAddress::v6(0xfe80, 0, 0, 0, 0, 0, 0, 1), 64)).unwrap();
    });
    iface.routes_mut().add_default_ipv4_route(Ipv4Address::new(192, 168, 69, 100)).unwrap();
    iface.routes_mut().add_default_ipv6_route(Ipv6Address::new(0xfe80, 0, 0, 0, 0, 0, 0, 0x100)).unwrap();

    // Create sockets
    let icmp_rx_buffer = icmp::PacketBuffer::new(vec![icmp::PacketMetadata::EMPTY], vec![0; 256]);
    let icmp_tx_buffer = icmp::PacketBuffer::new(vec![icmp::PacketMetadata::EMPTY], vec![0; 256]);
    let icmp_socket = icmp::Socket::new(icmp_rx_buffer, icmp_tx_buffer);
    let mut sockets = SocketSet::new(vec![]);
    let icmp_handle = sockets.add(icmp_socket);

    let mut send_at = Instant::ZERO;
    let mut seq_no = 0;
    let mut received = 0;
    let mut echo_payload = [0xffu8; 40];
    let mut waiting_queue = BTreeMap::new();
    let device_caps = device.capabilities();

    loop {
        let timestamp = Instant::now();
        iface.poll(timestamp, &mut device, &mut sockets);

        let timestamp = Instant::now();
        let socket = sockets.get_mut::<icmp::Socket>(icmp_handle);
        if !socket.is_open() {
            socket.bind(icmp::Endpoint::Ident(IDENT)).unwrap();
            send_at = timestamp;
        }

        if socket.can_send() && seq_no < count && send_at <= timestamp {
            echo_payload[..8].copy_from_slice(&timestamp.total_micros().to_be_bytes());
            match remote_addr {
                IpAddress::Ipv4(_) => {
                    let (icmp_repr, mut icmp_packet) =
                        send_icmp_ping!(Icmpv4Repr, Icmpv4Packet, IDENT, seq_no, echo_payload, socket, remote_addr);
                    icmp_repr.emit(&mut icmp_packet, &device_caps.checksum);
                }
                IpAddress::Ipv6(address) => {
                    let (icmp_repr, mut icmp_packet) =
                        send_icmp_ping!(Icmpv6Repr, Icmpv6Packet, IDENT, seq_no, echo_payload, socket, remote_addr);
                    icmp_repr.emit(
                        &iface.get_source_address_ipv6(&address),
                        &address,
                        &mut icmp_packet,
                        &device_caps.checksum,
                    );
                }
            }
            waiting_queue.insert(seq_no, timestamp);
            seq_no += 1;
            send_at += interval;
        }

        if socket.can_recv() {
            let (payload, _) = socket.recv().unwrap();
            match remote_addr {
                IpAddress::Ipv4(_) => {
                    let icmp_packet = Icmpv4Packet::new_checked(&payload).unwrap();
                    let icmp_repr = Icmpv4Repr::parse(&icmp_packet, &device_caps.checksum).unwrap();
                    get_icmp_pong!(Icmpv4Repr, icmp_repr, payload, waiting_queue, remote_addr, timestamp, received);
                }
                IpAddress::Ipv6(address) => {
                    let icmp_packet = Icmpv6Packet::new_checked(&payload).unwrap();
                    let own = iface.get_source_address_ipv6(&address);
                    let icmp_repr = Icmpv6Repr::parse(&address, &own, &icmp_packet, &device_caps.checksum).unwrap();
                    get_icmp_pong!(Icmpv6Repr, icmp_repr, payload, waiting_queue, remote_addr, timestamp, received);
                }
            }
        }

        waiting_queue.retain(|seq, from| {
            let is_over = timestamp - *from >= timeout;
            if is_over {
                println!("From {remote_addr} icmp_seq={seq} timeout");
            }
            !is_over
        });

        if seq_no == count && waiting_queue.is_empty() {
            break;
        }

        let timestamp = Instant::now();
        let due = iface.poll_at(timestamp, &sockets);
        let rest =
            if seq_no < count { Some(send_at) } else { waiting_queue.values().min().map(|from| *from + timeout) };
        let wake = [due, rest].into_iter().flatten().min();
        phy_wait(fd, wake.map(|at| at.max(timestamp) - timestamp)).expect("wait error");
    }

    println!("--- {remote_addr} ping statistics ---");
    println!("{seq_no} packets transmitted, {received} received");
    if received != usize::from(count) {
        std::process::exit(1);
    }
}
