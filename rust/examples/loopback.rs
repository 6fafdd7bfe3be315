//! smoltcp's `loopback`: a client and a server of TCP, two sockets of one interface, over a device to which each frame comes
//! that it sends.
use core::str;
use fumitorygate::iface::{Config, Interface, SocketSet};
use fumitorygate::phy::{Loopback, Medium};
use fumitorygate::socket::tcp;
use fumitorygate::time::{Duration, Instant};
use fumitorygate::wire::{EthernetAddress, IpAddress, IpCidr};

fn main() {
    let mut clock = Instant::ZERO;
    let mut device = Loopback::new(Medium::Ethernet);

    // Create interface
    let config = Config::new(EthernetAddress([0x02, 0x00, 0x00, 0x00, 0x00, 0x01]).into());
    let mut iface = Interface::new(config, &mut device, clock);
    iface.update_ip_addrs(|ip_addrs| {
        ip_addrs.push(IpCidr::new(IpAddress::v4(127, 0, 0, 1), 8)).unwrap();
    });

    // Create sockets
    let server_socket = {
        let tcp_rx_buffer = tcp::SocketBuffer::new(vec![0; 1024]);
        let tcp_tx_buffer = tcp::SocketBuffer::new(vec![0; 1024]);
        tcp::Socket::new(tcp_rx_buffer, tcp_tx_buffer)
    };

    let client_socket = {
        let tcp_rx_buffer = tcp::SocketBuffer::new(vec![0; 1024]);
        let tcp_tx_buffer = tcp::SocketBuffer::new(vec![0; 1024]);
        tcp::Socket::new(tcp_rx_buffer, tcp_tx_buffer)
    };

    let mut sockets = SocketSet::new(vec![]);
    let server_handle = sockets.add(server_socket);
    let client_handle = sockets.add(client_socket);

    let mut did_listen = false;
    let mut did_connect = false;
    let mut done = false;
    while !done && clock < Instant::from_millis(10_000) {
        iface.poll(clock, &mut device, &mut sockets);

        let socket = sockets.get_mut::<tcp::Socket>(server_handle);
        if !socket.is_active() && !socket.is_listening() && !did_listen {
            println!("listening");
            socket.listen(1234).unwrap();
            did_listen = true;
        }

        if socket.can_recv() {
            println!("got {:?}", socket.recv(|buffer| (buffer.len(), str::from_utf8(buffer).unwrap())));
            socket.close();
            done = true;
        }

        let socket = sockets.get_mut::<tcp::Socket>(client_handle);
        let cx = iface.context();
        if !socket.is_open() && !did_connect {
            println!("connecting");
            socket.connect(cx, (IpAddress::v4(127, 0, 0, 1), 1234), 65000).unwrap();
            did_connect = true;
        }

        if socket.can_send() {
            println!("sending");
            socket.send_slice(b"0123456789abcdef").unwrap();
            socket.close();
        }

        match iface.poll_delay(clock, &sockets) {
            Some(Duration::ZERO) => println!("resuming"),
            Some(delay) => {
                println!("sleeping for {delay}");
                clock += delay
            }
            None => clock += Duration::from_millis(1),
        }
    }

    assert!(done, "this is taking too long, bailing out");
    println!("done");
}
