//! smoltcp's `dns`: it asks servers for the addresses of a name, and prints what they answer.
//!
//!   dns DEVICE NAME [SERVER]
//!
//! The device is a TAP device of Linux. The servers are those of smoltcp's example, 8.8.4.4 and 8.8.8.8, by 192.168.69.100.
use fumitorygate::iface::{Config, Interface, SocketSet};
use fumitorygate::phy::{Medium, TunTapInterface, wait as phy_wait};
use fumitorygate::socket::dns::{self, GetQueryResultError};
use fumitorygate::time::Instant;
use fumitorygate::wire::{DnsQueryType, EthernetAddress, IpAddress, IpCidr, Ipv4Address, Ipv6Address};
use std::os::unix::io::AsRawFd;

fn main() {
    let args: Vec<String> = std::env::args().skip(1).collect();
    let [device, name, server @ ..] = &args[..] else { panic!("dns DEVICE NAME [SERVER]") };

    let mut device = TunTapInterface::new(device, Medium::Ethernet).expect("the device");
    let fd = device.as_raw_fd();

    // Create interface
    let mut config = Config::new(EthernetAddress([0x02, 0x00, 0x00, 0x00, 0x00, 0x01]).into());
    config.random_seed = std::process::id().into();

    let mut iface = Interface::new(config, &mut device, Instant::now());
    iface.update_ip_addrs(|ip_addrs| {
        ip_addrs.push(IpCidr::new(IpAddress::v4(192, 168, 69, 1), 24)).unwrap();
        ip_addrs.push(IpCidr::new(IpAddress::v6(0xfdaa, 0, 0, 0, 0, 0, 0, 1), 64)).unwrap();
        ip_addrs.push(IpCidr::new(IpAddress::v6(0xfe80, 0, 0, 0, 0, 0, 0, 1), 64)).unwrap();
    });
    iface.routes_mut().add_default_ipv4_route(Ipv4Address::new(192, 168, 69, 100)).unwrap();
    iface.routes_mut().add_default_ipv6_route(Ipv6Address::new(0xfe80, 0, 0, 0, 0, 0, 0, 0x100)).unwrap();

    // Create sockets
    let mut servers = vec![Ipv4Address::new(8, 8, 4, 4).into(), Ipv4Address::new(8, 8, 8, 8).into()];
    if let [server] = server {
        servers = vec![server.parse().expect("a server")];
    }
    let dns_socket = dns::Socket::new(&servers, vec![]);

    let mut sockets = SocketSet::new(vec![]);
    let dns_handle = sockets.add(dns_socket);

    let socket = sockets.get_mut::<dns::Socket>(dns_handle);
    let query = socket.start_query(iface.context(), name, DnsQueryType::A).unwrap();

    loop {
        let timestamp = Instant::now();
        iface.poll(timestamp, &mut device, &mut sockets);

        match sockets.get_mut::<dns::Socket>(dns_handle).get_query_result(query) {
            Ok(addrs) => {
                println!("Query done: {addrs:?}");
                break;
            }
            Err(GetQueryResultError::Pending) => {} // not done yet
            Err(e) => panic!("query failed: {e:?}"),
        }

        phy_wait(fd, iface.poll_delay(timestamp, &sockets)).expect("wait error");
    }
}
