//! smoltcp's `client`: connects, and answers each line that comes by the line reversed, until the peer closes.
//!
//!   client DEVICE ADDRESS PORT
//!
//! The device is a TAP device of Linux. Own addresses: 192.168.69.1/24, fdaa::1/64, fe80::1/64.
use fumitorygate::iface::{Config, Interface, SocketSet};
use fumitorygate::phy::{Medium, TunTapInterface, wait as phy_wait};
use fumitorygate::socket::tcp;
use fumitorygate::time::Instant;
use fumitorygate::wire::{EthernetAddress, IpAddress, IpCidr, Ipv4Address, Ipv6Address};
use std::os::unix::io::AsRawFd;
use std::str::{self, FromStr};

fn main() {
    let args: Vec<String> = std::env::args().skip(1).collect();
    let [name, address, port] = &args[..] else { panic!("client DEVICE ADDRESS PORT") };
    let address = IpAddress::from_str(address).expect("invalid address format");
    let port = u16::from_str(port).expect("invalid port format");

    let mut device = TunTapInterface::new(name, Medium::Ethernet).expect("the device");
    let fd = device.as_raw_fd();

    // Create interface
    let mut config = Config::new(EthernetAddress([0x02, 0x00, 0x00, 0x00, 0x00, 0x01]).into());
    config.random_seed = std::process::id().into();

    let mut iface = Interface::new(config, &mut device, Instant::now());
    iface.update_ip_addrs(|ip_addrs| {
        ip_addrs.push(IpCidr::new(IpAddress::v4(192, 168, 69, 1), 24)).unwrap();
        ip_addrs.push(IpCidr::new(IpAddress::v6(0xfdaa, 0, 0, 0, 0, 0, 0, 1), 64)).unwrap();
        ip_addrs.push(IpCidr::new(IpAddress::v6(0xfe80, 0, 0, 0, 0, 0, 0, 1), 64)).unwrap();
    });
    iface.routes_mut().add_default_ipv4_route(Ipv4Address::new(192, 168, 69, 100)).unwrap();
    iface.routes_mut().add_default_ipv6_route(Ipv6Address::new(0xfe80, 0, 0, 0, 0, 0, 0, 0x100)).unwrap();

    // Create sockets
    let tcp_rx_buffer = tcp::SocketBuffer::new(vec![0; 1500]);
    let tcp_tx_buffer = tcp::SocketBuffer::new(vec![0; 1500]);
    let tcp_socket = tcp::Socket::new(tcp_rx_buffer, tcp_tx_buffer);
    let mut sockets = SocketSet::new(vec![]);
    let tcp_handle = sockets.add(tcp_socket);

    let socket = sockets.get_mut::<tcp::Socket>(tcp_handle);
    socket.connect(iface.context(), (address, port), 49500).unwrap();

    let mut tcp_active = false;
    loop {
        let timestamp = Instant::now();
        iface.poll(timestamp, &mut device, &mut sockets);

        let socket = sockets.get_mut::<tcp::Socket>(tcp_handle);
        if socket.is_active() && !tcp_active {
            println!("connected");
        } else if !socket.is_active() && tcp_active {
            println!("disconnected");
            break;
        }
        tcp_active = socket.is_active();

        if socket.may_recv() {
            let data = socket
                .recv(|data| {
                    let recvd_len = data.len();
                    let mut data = data.to_owned();
                    if !data.is_empty() {
                        println!("recv data: {:?}", str::from_utf8(data.as_ref()).unwrap_or("(invalid utf8)"));
                        data = data.split(|&b| b == b'\n').collect::<Vec<_>>().concat();
                        data.reverse();
                        data.extend(b"\n");
                    }
                    (recvd_len, data)
                })
                .unwrap();
            if socket.can_send() && !data.is_empty() {
                println!("send data: {:?}", str::from_utf8(data.as_ref()).unwrap_or("(invalid utf8)"));
                socket.send_slice(&data[..]).unwrap();
            }
        } else if socket.may_send() {
            println!("close");
            socket.close();
        }

        phy_wait(fd, iface.poll_delay(timestamp, &sockets)).expect("wait error");
    }
}
