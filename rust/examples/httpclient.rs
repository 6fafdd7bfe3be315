//! smoltcp's `httpclient`: asks a server of HTTP for a page, and prints the response.
//!
//!   httpclient DEVICE ADDRESS http://HOST[:PORT][/PATH]
//!
//! The device is a TAP device of Linux. Own addresses: 192.168.69.1/24, fdaa::1/64, fe80::1/64.
use fumitorygate::iface::{Config, Interface, SocketSet};
use fumitorygate::phy::{Medium, TunTapInterface, wait as phy_wait};
use fumitorygate::socket::tcp;
use fumitorygate::time::Instant;
use fumitorygate::wire::{EthernetAddress, IpAddress, IpCidr, Ipv4Address, Ipv6Address};
use std::os::unix::io::AsRawFd;
use std::str::{self, FromStr};

/// A URL of HTTP: its host, port and path. smoltcp has another crate for it.
fn parse(url: &str) -> Option<(&str, u16, &str)> {
    let rest = url.strip_prefix("http://")?;
    let (end, path) = rest.split_at(rest.find('/').unwrap_or(rest.len()));
    let (host, port) = match end.rsplit_once(':') {
        Some((host, port)) if !port.ends_with(']') => (host, port.parse().ok()?),
        _ => (end, 80),
    };
    Some((host, port, if path.is_empty() { "/" } else { path }))
}

fn main() {
    let args: Vec<String> = std::env::args().skip(1).collect();
    let [name, address, url] = &args[..] else { panic!("httpclient DEVICE ADDRESS URL") };
    let address = IpAddress::from_str(address).expect("invalid address format");
    let (host, port, path) = parse(url).expect("invalid url format");

    let mut device = TunTapInterface::new(name, Medium::Ethernet).expect("the device");
    let fd = device.as_raw_fd();

    // Create interface
    let mut config = Config::new(EthernetAddress([0x02, 0x00, 0x00, 0x00, 0x00, 0x01]).into());
    config.random_seed = std::process::id().into();

    let mut iface = Interface::new(config, &mut device, Instant::now());
    iface.update_ip_addrs(|ip_addrs| {
        ip_addrs.push(IpCidr::new(IpAddress::v4(192, 168, 69, 1), 24)).unwrap();
        ip_addrs.push(IpCidr::new(IpAddress::v6(0xfdaa, 0, 0, 0, 0, 0, 0, 1), 64)).unwrap();
        ip_addrs.push(IpCidr::new(IpAddress::v6(0xfe80, 0, 0, 0, 0, 0, 0, 1), 64)).unwrap();
    });
    iface.routes_mut().add_default_ipv4_route(Ipv4Address::new(192, 168, 69, 100)).unwrap();
    iface.routes_mut().add_default_ipv6_route(Ipv6Address::new(0xfe80, 0, 0, 0, 0, 0, 0, 0x100)).unwrap();

    // Create sockets
    let tcp_rx_buffer = tcp::SocketBuffer::new(vec![0; 1024]);
    let tcp_tx_buffer = tcp::SocketBuffer::new(vec![0; 1024]);
    let tcp_socket = tcp::Socket::new(tcp_rx_buffer, tcp_tx_buffer);
    let mut sockets = SocketSet::new(vec![]);
    let tcp_handle = sockets.add(tcp_socket);

    enum State {
        Connect,
        Request,
        Response,
    }
    let mut state = State::Connect;

    loop {
        let timestamp = Instant::now();
        iface.poll(timestamp, &mut device, &mut sockets);

        let socket = sockets.get_mut::<tcp::Socket>(tcp_handle);
        let cx = iface.context();

        state = match state {
            State::Connect if !socket.is_active() => {
                let local_port = 49152 + std::process::id() as u16 % 16384;
                socket.connect(cx, (address, port), local_port).unwrap();
                State::Request
            }
            State::Request if socket.may_send() => {
                let http_get = "GET ".to_owned() + path + " HTTP/1.1\r\n";
                socket.send_slice(http_get.as_ref()).expect("cannot send");
                let http_host = "Host: ".to_owned() + host + "\r\n";
                socket.send_slice(http_host.as_ref()).expect("cannot send");
                socket.send_slice(b"Connection: close\r\n").expect("cannot send");
                socket.send_slice(b"\r\n").expect("cannot send");
                State::Response
            }
            State::Request if !socket.is_open() => panic!("no connection"),
            State::Response if socket.can_recv() => {
                socket
                    .recv(|data| {
                        println!("{}", str::from_utf8(data).unwrap_or("(invalid utf8)"));
                        (data.len(), ())
                    })
                    .unwrap();
                State::Response
            }
            State::Response if !socket.may_recv() => break,
            _ => state,
        };

        phy_wait(fd, iface.poll_delay(timestamp, &sockets)).expect("wait error");
    }
}
