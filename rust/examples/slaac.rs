//! A host that gets its address from an IPv6 router (RFC 4862): it prints its addresses as they change, and answers
//! pings.
//!
//!   slaac DEVICE [SECONDS]
//!
//! The device is a TAP device of Linux. It solicits routers from a link-local address, which it forms from its hardware
//! address. It fails if no router gave it an address.
use fumitorygate::iface::{Config, Interface, SocketSet};
use fumitorygate::phy::{Medium, TunTapInterface, wait as phy_wait};
use fumitorygate::time::{Duration, Instant};
use fumitorygate::wire::{EthernetAddress, Ipv6Address, Ipv6Cidr};
use std::os::unix::io::AsRawFd;

fn main() {
    let args: Vec<String> = std::env::args().skip(1).collect();
    let Some(name) = args.first() else { panic!("slaac DEVICE [SECONDS]") };
    let end = args.get(1).map(|text| Instant::now() + Duration::from_secs(text.parse().expect("seconds")));

    let mut device = TunTapInterface::new(name, Medium::Ethernet).expect("the device");
    let fd = device.as_raw_fd();

    let mut config = Config::new(EthernetAddress([0x02, 0x00, 0x00, 0x00, 0x00, 0x01]).into());
    config.random_seed = std::process::id().into();
    config.slaac = true;
    let mut iface = Interface::new(config, &mut device, Instant::now());
    let link = Ipv6Cidr::new(Ipv6Address::new(0xfe80, 0, 0, 0, 0, 0, 0, 0), 64);
    let link_local = Ipv6Cidr::from_link_prefix(&link, config.hardware_addr).unwrap();
    iface.update_ip_addrs(|ip_addrs| ip_addrs.push(link_local.into()).unwrap());
    let mut sockets = SocketSet::new(vec![]);

    let mut known = iface.ip_addrs();
    while end.is_none_or(|end| Instant::now() < end) {
        let timestamp = Instant::now();
        iface.poll(timestamp, &mut device, &mut sockets);

        let addresses = iface.ip_addrs();
        if addresses != known {
            let texts: Vec<String> = addresses.iter().map(|cidr| cidr.to_string()).collect();
            println!("addresses: {}", texts.join(", "));
            known = addresses;
        }

        let delay = iface.poll_delay(timestamp, &sockets);
        let rest = end.map(|end| end.max(timestamp) - timestamp);
        phy_wait(fd, [delay, rest].into_iter().flatten().min()).expect("wait error");
    }
    if known.len() < 2 {
        println!("no router gave an address");
        std::process::exit(1);
    }
}
