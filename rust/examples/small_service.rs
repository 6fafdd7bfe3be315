//! A small service whole: a host with nothing but a hardware address leases an address by DHCP, asks for a name by DNS, prints the
//! page of HTTP at that name, and has a page of its own at port 80.
//!
//!   small_service DEVICE SECONDS http://NAME[:PORT][/PATH] [SERVER]
//!
//! The device is a TAP device of Linux. Names are asked of the servers that the lease tells. With SERVER, an IPv6 address, they are
//! asked of that one, and the host takes its own address from a router (SLAAC, RFC 4862). It fails unless the page came.
use fumitorygate::iface::{Config, Interface, SocketHandle, SocketSet};
use fumitorygate::phy::{Medium, TunTapInterface, wait as phy_wait};
use fumitorygate::socket::{dhcpv4, dns, tcp};
use fumitorygate::time::{Duration, Instant};
use fumitorygate::wire::{DnsQueryType, EthernetAddress, IpAddress, IpCidr, Ipv6Address, Ipv6Cidr};
use std::io::Write;
use std::os::unix::io::AsRawFd;

const PAGE: &[u8] = b"HTTP/1.1 200 OK\r\nContent-Length: 22\r\nConnection: close\r\n\r\n<h1>A small one.</h1>\r\n";

/// What comes next: an address, the answer about the name, the page.
enum Phase {
    WithoutAddress,
    Asking(dns::QueryHandle),
    Requesting,
    Reading(Vec<u8>),
    Fetched,
}

/// A page of HTTP at a name.
struct Page<'a> {
    host: &'a str,
    port: u16,
    path: &'a str,
}

impl Page<'_> {
    fn parse(url: &str) -> Option<Page<'_>> {
        let rest = url.strip_prefix("http://")?;
        let (end, path) = rest.split_at(rest.find('/').unwrap_or(rest.len()));
        let (host, port) = match end.split_once(':') {
            Some((host, port)) => (host, port.parse().ok()?),
            None => (end, 80),
        };
        Some(Page { host, port, path: if path.is_empty() { "/" } else { path } })
    }
}

/// Does what became of the lease: the address, the default route, the servers of names.
fn apply(lease: Option<dhcpv4::Config>, iface: &mut Interface, names: &mut dns::Socket) {
    iface.update_ip_addrs(|addrs| addrs.clear());
    iface.routes_mut().remove_default_ipv4_route();
    let Some(lease) = lease else { return };
    iface.update_ip_addrs(|addrs| addrs.push(IpCidr::Ipv4(lease.address)).unwrap());
    if let Some(router) = lease.router {
        iface.routes_mut().add_default_ipv4_route(router).unwrap();
    }
    let servers: Vec<IpAddress> = lease.dns_servers.iter().map(|server| (*server).into()).collect();
    names.update_servers(&servers);
}

/// The first own address that isn't link-local.
fn own_address(iface: &Interface) -> Option<IpCidr> {
    let is_link_local =
        |cidr: &IpCidr| matches!(cidr, IpCidr::Ipv6(cidr) if cidr.address().segments()[0] & 0xffc0 == 0xfe80);
    iface.ip_addrs().iter().find(|cidr| !is_link_local(cidr)).copied()
}

/// The body of a page whose status is 200.
fn body(response: &[u8]) -> Option<&[u8]> {
    let head = response.windows(4).position(|four| four == b"\r\n\r\n")?;
    response[..head].get(8..12).filter(|status| *status == b" 200")?;
    Some(&response[head + 4..])
}

/// Answers a request as soon as its head is there, reads on until the peer's end, and listens anew.
fn serve(socket: &mut tcp::Socket) {
    if socket.state() == tcp::State::TimeWait {
        socket.abort();
    }
    if !socket.is_open() {
        socket.listen(80).unwrap();
    }
    if socket.may_send() && socket.can_recv() {
        if !socket.recv(|data| (0, data.windows(4).any(|four| four == b"\r\n\r\n"))).unwrap() {
            return;
        }
        socket.send_slice(PAGE).unwrap();
        socket.close();
    }
    while socket.can_recv() {
        socket.recv(|data| (data.len(), ())).unwrap();
    }
}

/// Reads what came of the page, and prints it once all is there.
fn read(socket: &mut tcp::Socket, mut response: Vec<u8>) -> Phase {
    loop {
        match socket.recv(|data| (data.len(), response.extend_from_slice(data))) {
            Ok(()) if socket.can_recv() => {}
            Ok(()) => return Phase::Reading(response),
            Err(error) => {
                assert_eq!(error, tcp::RecvError::Finished, "the connection was cut");
                socket.close();
                std::io::stdout().write_all(body(&response).expect("a page")).unwrap();
                return Phase::Fetched;
            }
        }
    }
}

/// Goes on with what comes next: names and peer are the sockets that ask for the name, and for the page.
fn go_on(
    phase: Phase,
    page: &Page,
    iface: &mut Interface,
    sockets: &mut SocketSet,
    names: SocketHandle,
    peer: SocketHandle,
) -> Phase {
    match phase {
        Phase::WithoutAddress => match own_address(iface) {
            None => Phase::WithoutAddress,
            Some(own) => {
                println!("the host is {own}");
                let kind = if let IpCidr::Ipv4(_) = own { DnsQueryType::A } else { DnsQueryType::Aaaa };
                let names = sockets.get_mut::<dns::Socket>(names);
                Phase::Asking(names.start_query(iface.context(), page.host, kind).expect(page.host))
            }
        },
        Phase::Asking(query) => match sockets.get_mut::<dns::Socket>(names).get_query_result(query) {
            Err(dns::GetQueryResultError::Pending) => Phase::Asking(query),
            Err(error) => {
                eprintln!("{}: {error}", page.host);
                std::process::exit(1);
            }
            Ok(found) => {
                let address = *found.iter().next().expect("an address");
                println!("{} is {address}", page.host);
                let local_port = 49152 + std::process::id() as u16 % 16384;
                sockets
                    .get_mut::<tcp::Socket>(peer)
                    .connect(iface.context(), (address, page.port), local_port)
                    .unwrap();
                Phase::Requesting
            }
        },
        Phase::Requesting => {
            let socket = sockets.get_mut::<tcp::Socket>(peer);
            assert!(socket.is_open(), "{} refuses the connection, or doesn't answer", page.host);
            if !socket.may_send() {
                return Phase::Requesting;
            }
            let request = format!("GET {} HTTP/1.0\r\nHost: {}:{}\r\n\r\n", page.path, page.host, page.port);
            socket.send_slice(request.as_bytes()).unwrap();
            Phase::Reading(Vec::new())
        }
        Phase::Reading(response) => read(sockets.get_mut(peer), response),
        Phase::Fetched => Phase::Fetched,
    }
}

fn new_tcp() -> tcp::Socket<'static> {
    tcp::Socket::new(tcp::SocketBuffer::new(vec![0; 8192]), tcp::SocketBuffer::new(vec![0; 8192]))
}

fn main() {
    let args: Vec<String> = std::env::args().skip(1).collect();
    let [device, seconds, url, server @ ..] = &args[..] else { panic!("small_service DEVICE SECONDS URL [SERVER]") };
    let page = Page::parse(url).expect("http://NAME[:PORT][/PATH]");
    let server: Option<IpAddress> = server.first().map(|text| text.parse().expect("a server's address"));
    let end = Instant::now() + Duration::from_secs(seconds.parse().expect("seconds"));

    let mut device = TunTapInterface::new(device, Medium::Ethernet).expect("the device");
    let fd = device.as_raw_fd();
    let mut config = Config::new(EthernetAddress([2, 0, 0, 0, 0, 5]).into());
    config.random_seed = std::process::id().into();
    config.slaac = server.is_some();
    let mut iface = Interface::new(config, &mut device, Instant::now());
    let mut sockets = SocketSet::of(&iface);
    let client = match server {
        None => Some(sockets.add(dhcpv4::Socket::new())),
        Some(_) => {
            let link = Ipv6Cidr::new(Ipv6Address::new(0xfe80, 0, 0, 0, 0, 0, 0, 0), 64);
            let link_local = Ipv6Cidr::from_link_prefix(&link, config.hardware_addr).unwrap();
            iface.update_ip_addrs(|addrs| addrs.push(link_local.into()).unwrap());
            None
        }
    };
    let names = sockets.add(dns::Socket::new(server.as_slice(), vec![]));
    let peer = sockets.add(new_tcp());
    let servers: Vec<SocketHandle> = (0..4).map(|_| sockets.add(new_tcp())).collect();

    let mut phase = Phase::WithoutAddress;
    while Instant::now() < end {
        let now = Instant::now();
        iface.poll(now, &mut device, &mut sockets);
        if let Some(event) = client.and_then(|client| sockets.get_mut::<dhcpv4::Socket>(client).poll()) {
            let lease = if let dhcpv4::Event::Configured(lease) = event { Some(lease) } else { None };
            apply(lease, &mut iface, sockets.get_mut(names));
        }
        phase = go_on(phase, &page, &mut iface, &mut sockets, names, peer);
        servers.iter().for_each(|handle| serve(sockets.get_mut(*handle)));
        let rest = end.max(now) - now;
        let delay = iface.poll_delay(now, &sockets).map_or(rest, |delay| delay.min(rest));
        phy_wait(fd, Some(delay)).expect("wait error");
    }
    assert!(matches!(phase, Phase::Fetched), "the page didn't come");
}
