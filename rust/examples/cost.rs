//! Has a host do one thing over and over, as `c/bench.c` does, so that its instructions can be counted.
//!
//!   cost WAY WORK ROUNDS      WAY: raw (the declared calls), host (`Host`) or iface (`Interface` and `SocketSet`);
//!                             WORK: deliver (and read), back (delivered, read and sent back), send or poll_at
//!
//! valgrind --tool=callgrind counts them; the difference of two runs, divided by the rounds between them, is a round's.
use fumitorygate::iface::{Config, Interface, SocketSet};
use fumitorygate::phy::{Medium, MemoryDevice};
use fumitorygate::socket::udp;
use fumitorygate::time::Instant;
use fumitorygate::wire::{EthernetAddress, HardwareAddress, IpAddress, IpCidr, IpEndpoint};
use fumitorygate::{FRAME_ROOM, Host, Rooms, Settings, sys};

const OWN: EthernetAddress = EthernetAddress([2, 0, 0, 0, 0, 1]);
const CIDR: IpCidr = IpCidr::new(IpAddress::v4(192, 168, 69, 1), 24);
const REMOTE: IpEndpoint = IpEndpoint::new(IpAddress::v4(192, 168, 69, 100), 5000);
const PORT: u16 = 4000;
const PACKETS: u32 = 4;
const OCTETS: u32 = 8192;

fn sum(octets: &[u8]) -> [u8; 2] {
    let words = octets.chunks(2).map(|two| u32::from(two[0]) << 8 | two.get(1).map_or(0, |low| u32::from(*low)));
    let mut total: u32 = words.sum();
    while total > 0xffff {
        total = (total & 0xffff) + (total >> 16);
    }
    (!(total as u16)).to_be_bytes()
}

/// A datagram of 64 octets from port 5000 to port 4000, with its checksum over the pseudo-header of RFC 768.
fn datagram() -> Vec<u8> {
    let mut ip = vec![0x45, 0, 0, 92, 0, 0, 0, 0, 64, 17, 0, 0, 192, 168, 69, 100, 192, 168, 69, 1];
    let check = sum(&ip);
    ip[10..12].copy_from_slice(&check);
    let mut udp = vec![0x13, 0x88, 0x0f, 0xa0, 0, 72, 0, 0];
    udp.extend([0; 64]);
    let check = sum(&[&ip[12..20], &[0, 17, 0, 72], &udp].concat());
    udp[6..8].copy_from_slice(&check);
    [&[2, 0, 0, 0, 0, 1, 2, 0, 0, 0, 0, 2, 8, 0][..], &ip, &udp].concat()
}

fn arp_request() -> Vec<u8> {
    let mut frame = vec![0xff, 0xff, 0xff, 0xff, 0xff, 0xff, 2, 0, 0, 0, 0, 2, 8, 6, 0, 1, 8, 0, 6, 4, 0, 1];
    frame.extend([2, 0, 0, 0, 0, 2, 192, 168, 69, 100, 0, 0, 0, 0, 0, 0, 192, 168, 69, 1]);
    frame
}

/// One way of calling the library.
trait Way {
    fn new() -> Self;
    fn receive(&mut self, frame: &[u8]) -> usize;
    fn next(&mut self) -> usize;
    fn read(&mut self, out: &mut [u8]) -> (usize, IpEndpoint);
    fn send(&mut self, to: IpEndpoint, payload: &[u8]);
    fn poll_at(&mut self) -> bool;
}

struct Raw {
    host: sys::iface,
    socket: u32,
    from: sys::iface_endpoint,
    out: [u8; FRAME_ROOM],
}

fn endpoint(address: [u8; 4], version: u8, port: u16) -> sys::iface_endpoint {
    let mut octets = [0; 16];
    octets[..4].copy_from_slice(&address);
    sys::iface_endpoint { address: sys::iface_address { version, octets }, port }
}

impl Way for Raw {
    fn new() -> Raw {
        let mut raw = Raw {
            host: sys::iface::NONE,
            socket: 0,
            from: endpoint([192, 168, 69, 100], 4, 5000),
            out: [0; FRAME_ROOM],
        };
        let own = endpoint([192, 168, 69, 1], 4, 0).address;
        let local = endpoint([0; 4], 0, PORT);
        let rooms = sys::iface_rooms {
            received_packets: PACKETS,
            received_octets: OCTETS,
            to_send_packets: PACKETS,
            to_send_octets: OCTETS,
        };
        // SAFETY: as in `Host`: the handle begins as none, and all pointers are those of references to different
        // things.
        unsafe {
            let mut config = core::mem::zeroed();
            sys::iface_config_init(&mut config);
            (config.seed, config.sockets, config.hardware_address) = (1, 1, OWN.0);
            assert_eq!(sys::iface_new(&mut raw.host, &config), 0);
            assert_eq!(sys::iface_add_address(&mut raw.host, &own, 24), 0);
            assert_eq!(sys::iface_udp_open(&mut raw.host, &local, &rooms, &mut raw.socket), 0);
        }
        raw
    }

    fn receive(&mut self, frame: &[u8]) -> usize {
        let (out, mut length) = (&mut self.out, 0);
        // SAFETY: as in `Host`.
        let code = unsafe {
            let host = &mut self.host;
            sys::iface_receive(host, 0, frame.as_ptr(), frame.len(), out.as_mut_ptr(), out.len(), &mut length)
        };
        assert_eq!(code, 0);
        length
    }

    fn next(&mut self) -> usize {
        let (out, mut length) = (&mut self.out, 0);
        // SAFETY: as in `Host`.
        let code = unsafe { sys::iface_next(&mut self.host, 0, out.as_mut_ptr(), out.len(), &mut length) };
        assert_eq!(code, 0);
        length
    }

    fn read(&mut self, out: &mut [u8]) -> (usize, IpEndpoint) {
        let (host, mut length) = (&mut self.host, 0);
        // SAFETY: as in `Host`.
        let code = unsafe {
            sys::iface_udp_receive(host, self.socket, &mut self.from, out.as_mut_ptr(), out.len(), &mut length)
        };
        assert_eq!(code, 0);
        (length, REMOTE)
    }

    /// It sends to where the last datagram came from.
    fn send(&mut self, _to: IpEndpoint, payload: &[u8]) {
        let (host, to) = (&mut self.host, &self.from);
        // SAFETY: as in `Host`.
        let code = unsafe { sys::iface_udp_send(host, self.socket, to, payload.as_ptr(), payload.len()) };
        assert_eq!(code, 0);
    }

    fn poll_at(&mut self) -> bool {
        let mut at = 0;
        // SAFETY: as in `Host`.
        assert_eq!(unsafe { sys::iface_poll_at(&mut self.host, 0, &mut at) }, 0);
        at == sys::IFACE_NEVER
    }
}

struct Safe {
    host: Host,
    socket: u32,
    out: [u8; FRAME_ROOM],
}

impl Way for Safe {
    fn new() -> Safe {
        let mut settings = Settings::new(HardwareAddress::Ethernet(OWN));
        (settings.random_seed, settings.sockets) = (1, 1);
        let mut host = Host::new(&settings).unwrap();
        host.add_address(CIDR).unwrap();
        let socket = host.udp_open(PORT.into(), Rooms::new(PACKETS, OCTETS)).unwrap();
        Safe { host, socket, out: [0; FRAME_ROOM] }
    }

    fn receive(&mut self, frame: &[u8]) -> usize {
        self.host.receive(Instant::ZERO, frame, &mut self.out).unwrap().map_or(0, <[u8]>::len)
    }

    fn next(&mut self) -> usize {
        self.host.next(Instant::ZERO, &mut self.out).unwrap().map_or(0, <[u8]>::len)
    }

    fn read(&mut self, out: &mut [u8]) -> (usize, IpEndpoint) {
        self.host.udp_receive(self.socket, out).unwrap()
    }

    fn send(&mut self, to: IpEndpoint, payload: &[u8]) {
        self.host.udp_send(self.socket, to, payload).unwrap();
    }

    fn poll_at(&mut self) -> bool {
        self.host.poll_at(Instant::ZERO).is_none()
    }
}

struct Shaped {
    iface: Interface,
    sockets: SocketSet<'static>,
    handle: fumitorygate::iface::SocketHandle,
}

impl Way for Shaped {
    fn new() -> Shaped {
        let mut device = MemoryDevice::new(Medium::Ethernet, 1514);
        let mut config = Config::new(OWN.into());
        (config.random_seed, config.sockets) = (1, 1);
        let mut iface = Interface::new(config, &mut device, Instant::ZERO);
        iface.update_ip_addrs(|ip_addrs| ip_addrs.push(CIDR).unwrap());
        let mut sockets = SocketSet::of(&iface);
        let buffer = udp::PacketBuffer::with_capacity(PACKETS as usize, OCTETS as usize);
        let handle = sockets.add(udp::Socket::new(buffer, buffer));
        sockets.get_mut::<udp::Socket>(handle).bind(PORT).unwrap();
        Shaped { iface, sockets, handle }
    }

    fn receive(&mut self, frame: &[u8]) -> usize {
        self.iface.receive_frame(Instant::ZERO, frame, &mut self.sockets).map_or(0, <[u8]>::len)
    }

    fn next(&mut self) -> usize {
        self.iface.next_frame(Instant::ZERO, &mut self.sockets).map_or(0, <[u8]>::len)
    }

    fn read(&mut self, out: &mut [u8]) -> (usize, IpEndpoint) {
        let socket = self.sockets.get_mut::<udp::Socket>(self.handle);
        let (length, from) = socket.recv_slice(out).unwrap();
        (length, from.endpoint)
    }

    fn send(&mut self, to: IpEndpoint, payload: &[u8]) {
        self.sockets.get_mut::<udp::Socket>(self.handle).send_slice(payload, to).unwrap();
    }

    fn poll_at(&mut self) -> bool {
        self.iface.poll_at(Instant::ZERO, &self.sockets).is_none()
    }
}

impl Drop for Raw {
    fn drop(&mut self) {
        // SAFETY: as in `Host`.
        unsafe { sys::iface_free(&mut self.host) };
    }
}

fn run<W: Way>(work: &str, rounds: u32) -> usize {
    let (mut way, mut payload, mut octets) = (W::new(), [0; 2048], 0);
    way.receive(&arp_request());
    way.next();
    let frame = datagram();
    for _ in 0..rounds {
        octets += match work {
            "deliver" => way.receive(&frame) + way.read(&mut payload).0,
            "back" => {
                way.receive(&frame);
                let (length, from) = way.read(&mut payload);
                way.send(from, &payload[..length]);
                way.next()
            }
            "send" => {
                way.send(REMOTE, &payload[..1400]);
                way.next()
            }
            "poll_at" => usize::from(way.poll_at()),
            _ => panic!("no such work"),
        };
    }
    octets
}

fn main() {
    let args: Vec<String> = std::env::args().skip(1).collect();
    let [way, work, rounds] = &args[..] else { panic!("cost WAY WORK ROUNDS") };
    let rounds = rounds.parse().expect("rounds");
    let octets = match way.as_str() {
        "raw" => run::<Raw>(work, rounds),
        "host" => run::<Safe>(work, rounds),
        "iface" => run::<Shaped>(work, rounds),
        _ => panic!("no such way"),
    };
    println!("{work} by {way}: {octets} octets in {rounds} rounds");
}
