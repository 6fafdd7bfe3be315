//! smoltcp's `dhcp_client`: it leases its IPv4 address (RFC 2131), prints what becomes of the lease, and answers pings.
//!
//!   dhcp_client DEVICE [SECONDS]
//!
//! The device is a TAP device of Linux.
use fumitorygate::iface::{Config, Interface, SocketSet};
use fumitorygate::phy::{Medium, TunTapInterface, wait as phy_wait};
use fumitorygate::socket::dhcpv4;
use fumitorygate::time::{Duration, Instant};
use fumitorygate::wire::{EthernetAddress, IpCidr, Ipv4Cidr};
use std::os::unix::io::AsRawFd;

fn main() {
    let args: Vec<String> = std::env::args().skip(1).collect();
    let Some(name) = args.first() else { panic!("dhcp_client DEVICE [SECONDS]") };
    let end = args.get(1).map(|text| Instant::now() + Duration::from_secs(text.parse().expect("seconds")));

    let mut device = TunTapInterface::new(name, Medium::Ethernet).expect("the device");
    let fd = device.as_raw_fd();

    // Create interface
    let mut config = Config::new(EthernetAddress([0x02, 0x00, 0x00, 0x00, 0x00, 0x01]).into());
    config.random_seed = std::process::id().into();
    let mut iface = Interface::new(config, &mut device, Instant::now());

    // Create sockets
    let dhcp_socket = dhcpv4::Socket::new();
    let mut sockets = SocketSet::new(vec![]);
    let dhcp_handle = sockets.add(dhcp_socket);

    while end.is_none_or(|end| Instant::now() < end) {
        let timestamp = Instant::now();
        iface.poll(timestamp, &mut device, &mut sockets);

        let event = sockets.get_mut::<dhcpv4::Socket>(dhcp_handle).poll();
        match event {
            None => {}
            Some(dhcpv4::Event::Configured(config)) => {
                println!("DHCP config acquired!");

                println!("IP address:      {}", config.address);
                set_ipv4_addr(&mut iface, config.address);

                if let Some(router) = config.router {
                    println!("Default gateway: {router}");
                    iface.routes_mut().add_default_ipv4_route(router).unwrap();
                } else {
                    println!("Default gateway: None");
                    iface.routes_mut().remove_default_ipv4_route();
                }

                for (i, s) in config.dns_servers.iter().enumerate() {
                    println!("DNS server {i}:    {s}");
                }
            }
            Some(dhcpv4::Event::Deconfigured) => {
                println!("DHCP lost config!");
                iface.update_ip_addrs(|addrs| addrs.clear());
                iface.routes_mut().remove_default_ipv4_route();
            }
        }

        let delay = iface.poll_delay(timestamp, &sockets);
        let rest = end.map(|end| end.max(timestamp) - timestamp);
        phy_wait(fd, [delay, rest].into_iter().flatten().min()).expect("wait error");
    }
}

fn set_ipv4_addr(iface: &mut Interface, cidr: Ipv4Cidr) {
    iface.update_ip_addrs(|addrs| {
        addrs.clear();
        addrs.push(IpCidr::Ipv4(cidr)).unwrap();
    });
}
