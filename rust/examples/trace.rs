//! A host on an interface of Linux, by a packet socket. It answers pings, prints each frame, and writes all to a file for
//! `tcpdump` and Wireshark.
//!
//!   trace DEVICE ADDRESS/PREFIX FILE [SECONDS]
//!
//! Its hardware address is 02-00-00-00-00-03, so the interface has to take frames to that: `ip link set DEVICE promisc on`.
use fumitorygate::iface::{Config, Interface, SocketSet};
use fumitorygate::phy::{Medium, PcapMode, PcapWriter, RawSocket, Tracer, wait as phy_wait};
use fumitorygate::time::{Duration, Instant};
use fumitorygate::wire::{EthernetAddress, IpCidr};
use std::fs::File;
use std::os::unix::io::AsRawFd;

fn main() {
    let args: Vec<String> = std::env::args().skip(1).collect();
    let [name, cidr, file, ..] = &args[..] else { panic!("trace DEVICE ADDRESS/PREFIX FILE [SECONDS]") };
    let end = args.get(3).map(|text| Instant::now() + Duration::from_secs(text.parse().expect("seconds")));
    let cidr: IpCidr = cidr.parse().expect("an address");

    let socket = RawSocket::new(name, Medium::Ethernet).expect("the interface");
    let fd = socket.as_raw_fd();
    let device = PcapWriter::new(socket, File::create(file).expect("the file"), PcapMode::Both);
    let mut device = Tracer::new(device, |timestamp, packet| println!("[{timestamp}] {packet}"));

    let mut config = Config::new(EthernetAddress([2, 0, 0, 0, 0, 3]).into());
    config.random_seed = std::process::id().into();
    let mut iface = Interface::new(config, &mut device, Instant::now());
    iface.update_ip_addrs(|ip_addrs| ip_addrs.push(cidr).unwrap());
    let mut sockets = SocketSet::new(vec![]);
    loop {
        let timestamp = Instant::now();
        if end.is_some_and(|end| timestamp >= end) {
            break;
        }
        iface.poll(timestamp, &mut device, &mut sockets);
        let rest = end.map(|end| end.max(timestamp) - timestamp);
        let delay = [iface.poll_delay(timestamp, &sockets), rest].into_iter().flatten().min();
        phy_wait(fd, delay).expect("wait error");
    }
}
