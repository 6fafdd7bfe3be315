//! Datagrams of UDP over a loopback: a client and a server, two sockets of one interface, over a device to which each
//! frame comes that it sends. The client sends datagrams of several lengths, in fragments where they are long, and the
//! server sends each back.
use fumitorygate::iface::{Config, Interface, PollResult, SocketSet};
use fumitorygate::phy::{Loopback, Medium};
use fumitorygate::socket::udp;
use fumitorygate::time::{Duration, Instant};
use fumitorygate::wire::{EthernetAddress, IpAddress, IpCidr};

fn main() {
    let mut device = Loopback::new(Medium::Ethernet);

    // Create interface
    let config = Config::new(EthernetAddress([0x02, 0x00, 0x00, 0x00, 0x00, 0x01]).into());
    let mut iface = Interface::new(config, &mut device, Instant::ZERO);
    iface.update_ip_addrs(|ip_addrs| {
        ip_addrs.push(IpCidr::new(IpAddress::v4(127, 0, 0, 1), 8)).unwrap();
    });

    // Create sockets
    let buffer = udp::PacketBuffer::with_capacity(4, 16384);
    let mut server_socket = udp::Socket::new(buffer, buffer);
    server_socket.bind(1234).unwrap();
    let mut client_socket = udp::Socket::new(buffer, buffer);
    client_socket.bind(65000).unwrap();
    let mut sockets = SocketSet::new(vec![]);
    let server_handle = sockets.add(server_socket);
    let client_handle = sockets.add(client_socket);

    let mut clock = Instant::ZERO;
    for length in [0, 1, 1000, 1472, 1473, 4068] {
        let payload: Vec<u8> = (0..length).map(|place| (place % 251) as u8).collect();
        let socket = sockets.get_mut::<udp::Socket>(client_handle);
        socket.send_slice(&payload, (IpAddress::v4(127, 0, 0, 1), 1234)).unwrap();

        let end = clock + Duration::from_secs(10);
        let echoed = loop {
            // Until no socket changes any more.
            while iface.poll(clock, &mut device, &mut sockets) != PollResult::None {}
            let socket = sockets.get_mut::<udp::Socket>(server_handle);
            while let Ok((data, client)) = socket.recv() {
                let data = data.to_vec();
                socket.send_slice(&data, client).unwrap();
            }
            if let Ok((data, _)) = sockets.get_mut::<udp::Socket>(client_handle).recv() {
                break data.to_vec();
            }
            assert!(clock < end, "no echo of {length} octets");
            let delay = iface.poll_delay(clock, &sockets);
            clock += delay.unwrap_or(Duration::from_millis(1)).max(Duration::from_millis(1));
        };
        assert_eq!(echoed, payload);
        println!("{length} octets: echoed at {clock}");
    }
}
