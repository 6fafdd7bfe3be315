//! smoltcp's `server`:
//!
//! - udp:6969: answers each datagram by its payload reversed;
//! - tcp:6969: greets by "hello", and closes;
//! - tcp:6970: answers each line by the line reversed;
//! - tcp:6971: takes what comes, and drops it;
//! - tcp:6972: sends as much as there is room for.
//!
//!   server DEVICE [SECONDS]
//!
//! The device is a TAP device of Linux. Own addresses: 192.168.69.1/24, fdaa::1/64, fe80::1/64.
use fumitorygate::iface::{Config, Interface, SocketSet};
use fumitorygate::phy::{Medium, TunTapInterface, wait as phy_wait};
use fumitorygate::socket::{tcp, udp};
use fumitorygate::time::{Duration, Instant};
use fumitorygate::wire::{EthernetAddress, IpAddress, IpCidr, Ipv4Address, Ipv6Address};
use std::fmt::Write;
use std::os::unix::io::AsRawFd;

fn main() {
    let args: Vec<String> = std::env::args().skip(1).collect();
    let Some(name) = args.first() else { panic!("server DEVICE [SECONDS]") };
    let end = args.get(1).map(|text| Instant::now() + Duration::from_secs(text.parse().expect("seconds")));

    let mut device = TunTapInterface::new(name, Medium::Ethernet).expect("the device");
    let fd = device.as_raw_fd();

    // Create interface
    let mut config = Config::new(EthernetAddress([0x02, 0x00, 0x00, 0x00, 0x00, 0x01]).into());
    config.random_seed = std::process::id().into();

    let mut iface = Interface::new(config, &mut device, Instant::now());
    iface.update_ip_addrs(|ip_addrs| {
        ip_addrs.push(IpCidr::new(IpAddress::v4(192, 168, 69, 1), 24)).unwrap();
        ip_addrs.push(IpCidr::new(IpAddress::v6(0xfdaa, 0, 0, 0, 0, 0, 0, 1), 64)).unwrap();
        ip_addrs.push(IpCidr::new(IpAddress::v6(0xfe80, 0, 0, 0, 0, 0, 0, 1), 64)).unwrap();
    });
    iface.routes_mut().add_default_ipv4_route(Ipv4Address::new(192, 168, 69, 100)).unwrap();
    iface.routes_mut().add_default_ipv6_route(Ipv6Address::new(0xfe80, 0, 0, 0, 0, 0, 0, 0x100)).unwrap();

    // Create sockets
    let udp_rx_buffer =
        udp::PacketBuffer::new(vec![udp::PacketMetadata::EMPTY, udp::PacketMetadata::EMPTY], vec![0; 65535]);
    let udp_tx_buffer =
        udp::PacketBuffer::new(vec![udp::PacketMetadata::EMPTY, udp::PacketMetadata::EMPTY], vec![0; 65535]);
    let udp_socket = udp::Socket::new(udp_rx_buffer, udp_tx_buffer);

    let tcp1_rx_buffer = tcp::SocketBuffer::new(vec![0; 64]);
    let tcp1_tx_buffer = tcp::SocketBuffer::new(vec![0; 128]);
    let tcp1_socket = tcp::Socket::new(tcp1_rx_buffer, tcp1_tx_buffer);

    let tcp2_rx_buffer = tcp::SocketBuffer::new(vec![0; 64]);
    let tcp2_tx_buffer = tcp::SocketBuffer::new(vec![0; 128]);
    let tcp2_socket = tcp::Socket::new(tcp2_rx_buffer, tcp2_tx_buffer);

    let tcp3_rx_buffer = tcp::SocketBuffer::new(vec![0; 65535]);
    let tcp3_tx_buffer = tcp::SocketBuffer::new(vec![0; 65535]);
    let tcp3_socket = tcp::Socket::new(tcp3_rx_buffer, tcp3_tx_buffer);

    let tcp4_rx_buffer = tcp::SocketBuffer::new(vec![0; 65535]);
    let tcp4_tx_buffer = tcp::SocketBuffer::new(vec![0; 65535]);
    let tcp4_socket = tcp::Socket::new(tcp4_rx_buffer, tcp4_tx_buffer);

    let mut sockets = SocketSet::new(vec![]);
    let udp_handle = sockets.add(udp_socket);
    let tcp1_handle = sockets.add(tcp1_socket);
    let tcp2_handle = sockets.add(tcp2_socket);
    let tcp3_handle = sockets.add(tcp3_socket);
    let tcp4_handle = sockets.add(tcp4_socket);

    let mut tcp_6970_active = false;

    while end.is_none_or(|end| Instant::now() < end) {
        let timestamp = Instant::now();
        iface.poll(timestamp, &mut device, &mut sockets);

        // udp:6969: respond "hello"
        let socket = sockets.get_mut::<udp::Socket>(udp_handle);
        if !socket.is_open() {
            socket.bind(6969).unwrap()
        }

        let client = match socket.recv() {
            Ok((data, endpoint)) => {
                println!("udp:6969 recv data: {} octets from {endpoint}", data.len());
                let mut data = data.to_vec();
                data.reverse();
                Some((endpoint, data))
            }
            Err(_) => None,
        };
        if let Some((endpoint, data)) = client {
            if let Err(error) = socket.send_slice(&data, endpoint) {
                println!("udp:6969 not sent to {endpoint}: {error}");
            }
        }
        if let Some(address) = socket.given_up() {
            println!("udp:6969 {address} doesn't answer");
        }

        // tcp:6969: respond "hello"
        let socket = sockets.get_mut::<tcp::Socket>(tcp1_handle);
        if !socket.is_open() {
            socket.listen(6969).unwrap();
        }

        if socket.can_send() {
            println!("tcp:6969 send greeting");
            writeln!(socket, "hello").unwrap();
            println!("tcp:6969 close");
            socket.close();
        }

        // tcp:6970: echo with reverse
        let socket = sockets.get_mut::<tcp::Socket>(tcp2_handle);
        if !socket.is_open() {
            socket.listen(6970).unwrap()
        }

        if socket.is_active() && !tcp_6970_active {
            println!("tcp:6970 connected");
        } else if !socket.is_active() && tcp_6970_active {
            println!("tcp:6970 disconnected");
        }
        tcp_6970_active = socket.is_active();

        if socket.may_recv() {
            let data = socket
                .recv(|buffer| {
                    let recvd_len = buffer.len();
                    let mut data = buffer.to_owned();
                    if !data.is_empty() {
                        println!("tcp:6970 recv data: {} octets", data.len());
                        data = data.split(|&b| b == b'\n').collect::<Vec<_>>().concat();
                        data.reverse();
                        data.extend(b"\n");
                    }
                    (recvd_len, data)
                })
                .unwrap();
            if socket.can_send() && !data.is_empty() {
                println!("tcp:6970 send data: {} octets", data.len());
                socket.send_slice(&data[..]).unwrap();
            }
        } else if socket.may_send() {
            println!("tcp:6970 close");
            socket.close();
        }

        // tcp:6971: sinkhole
        let socket = sockets.get_mut::<tcp::Socket>(tcp3_handle);
        if !socket.is_open() {
            socket.listen(6971).unwrap();
            socket.set_keep_alive(Some(Duration::from_millis(1000)));
            socket.set_timeout(Some(Duration::from_millis(2000)));
        }

        if socket.may_recv() {
            socket.recv(|buffer| (buffer.len(), ())).unwrap();
        } else if socket.may_send() {
            socket.close();
        }

        // tcp:6972: fountain
        let socket = sockets.get_mut::<tcp::Socket>(tcp4_handle);
        if !socket.is_open() {
            socket.listen(6972).unwrap()
        }

        if socket.may_send() {
            socket
                .send(|data| {
                    for (i, b) in data.iter_mut().enumerate() {
                        *b = (i % 256) as u8;
                    }
                    (data.len(), ())
                })
                .unwrap();
        }

        let delay = iface.poll_delay(timestamp, &sockets);
        let rest = end.map(|end| end.max(timestamp) - timestamp);
        phy_wait(fd, [delay, rest].into_iter().flatten().min()).expect("wait error");
    }
}
