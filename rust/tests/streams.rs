//! The library's calls for connections through `Streams`: two hosts in one process. What is expected comes from RFC 9293, and
//! from `c/iface.h`.
mod common;

use common::Node;
use fumitorygate::time::{Duration, Instant};
use fumitorygate::wire::{HardwareAddress, IpAddress, IpCidr, IpEndpoint};
use fumitorygate::{Error, Rooms, Secrets, Settings, StreamEnding, StreamSettings, StreamState, Streams};

const SECRETS: Secrets = Secrets { number_key: [1; 32], table_key: [2, 3] };
const SERVER: IpEndpoint = IpEndpoint::new(IpAddress::v4(10, 0, 0, 1), 7);

struct Peer {
    node: Node,
    tcp: Streams,
}

fn peer(last: u8, places: u32) -> Peer {
    let mut settings = Settings::new(HardwareAddress::Ip);
    (settings.frame_len, settings.sockets) = (1500, 4);
    let mut node = Node::of(&settings, &[IpCidr::new(IpAddress::v4(10, 0, 0, last), 24)]);
    let mut settings = StreamSettings::new();
    settings.places = places;
    let tcp = Streams::new(&mut node.host, &settings, &SECRETS).unwrap();
    Peer { node, tcp }
}

/// Hands frames over until there are none.
fn settle(peers: &mut [Peer; 2], now: Instant) {
    loop {
        let mut sent = [Vec::new(), Vec::new()];
        for (frames, Peer { node, tcp }) in sent.iter_mut().zip(&mut *peers) {
            tcp.poll(&mut node.host, now).unwrap();
            *frames = node.frames(now);
        }
        if sent.iter().all(Vec::is_empty) {
            return;
        }
        let [one, other] = &mut *peers;
        for (frames, Peer { node, tcp }) in sent.iter().zip([other, one]) {
            for frame in frames {
                assert_eq!(node.take(now, frame), None);
                tcp.poll(&mut node.host, now).unwrap();
            }
        }
    }
}

/// `c/iface.h`: the comments of `struct iface_streams_config`.
#[test]
fn the_settings_are_those_of_the_header() {
    let settings = StreamSettings::new();
    assert_eq!(settings.keep_alive, None);
    assert_eq!(settings.accepted_keep_alive, Some(Duration::from_secs(120)));
    assert_eq!(settings.timeout, None);
    assert_eq!(settings.ack_delay, Duration::from_millis(10));
    assert_eq!(settings.shortest_timeout, Duration::from_millis(200));
    assert_eq!(settings.time_wait, Duration::from_secs(60));
    assert_eq!(settings.release_timeout, Duration::from_secs(120));
    assert_eq!((settings.places, settings.send_room, settings.receive_room), (8, 4096, 4096));
    assert_eq!((settings.packets, settings.packet_octets, settings.far_octets), (8, 1536, 1024));
    assert!(settings.ipv4 && settings.ipv6 && settings.nagle && settings.congestion_control);
    assert_eq!(format!("{SECRETS:?}"), "Secrets");
}

#[test]
fn streams_go_between_hosts() {
    let (now, later) = (Instant::ZERO, Instant::from_millis(20));
    let mut peers = [peer(1, 1), peer(2, 3)];
    let listener = peers[0].tcp.listen(SERVER.port.into(), 4).unwrap();
    assert_eq!(peers[0].tcp.accept(listener), Err(Error::Empty));
    let Peer { node, tcp } = &mut peers[1];
    let client = tcp.connect(&mut node.host, now, 4000.into(), SERVER).unwrap();
    assert_eq!(tcp.state(client), Ok(StreamState::SynSent));
    assert!(tcp.poll_at().unwrap() <= now);
    settle(&mut peers, now);
    let server = peers[0].tcp.accept(listener).unwrap();
    let from = IpEndpoint::new(IpAddress::v4(10, 0, 0, 2), 4000);
    assert_eq!(peers[0].tcp.ends(server), Ok((SERVER, from)));
    assert_eq!(peers[1].tcp.ends(client), Ok((from, SERVER)));
    for (peer, name) in peers.iter_mut().zip([server, client]) {
        assert_eq!((peer.tcp.changed(), peer.tcp.changed()), (Ok(name), Err(Error::Empty)));
    }

    peers[1].tcp.set_nagle(client, false).unwrap();
    peers[0].tcp.set_ack_delay(server, Duration::ZERO).unwrap();
    peers[1].tcp.set_keep_alive(client, None).unwrap();
    peers[1].tcp.set_timeout(client, Some(Duration::from_secs(9))).unwrap();
    peers[1].tcp.set_hop_limit(client, 9).unwrap();
    assert_eq!(peers[1].tcp.set_hop_limit(client, 0), Err(Error::BadArgument));
    assert_eq!(peers[1].tcp.send(client, b"octets"), Ok(6));
    assert_eq!(peers[1].tcp.rooms(client), Ok((4096 - 6, 0)));
    settle(&mut peers, now);
    assert_eq!(peers[0].tcp.rooms(server), Ok((4096, 6)));
    let mut out = [0; 4];
    assert_eq!((peers[0].tcp.peek(server, &mut out), out), (Ok(4), *b"octe"));
    assert_eq!((peers[0].tcp.receive(server, &mut out), out), (Ok(4), *b"octe"));
    assert_eq!(peers[0].tcp.receive(server, &mut out), Ok(2));
    assert_eq!((peers[0].tcp.changed(), peers[0].tcp.changed()), (Ok(server), Err(Error::Empty)));

    peers[1].tcp.close(client).unwrap();
    settle(&mut peers, later);
    assert_eq!(peers[0].tcp.state(server), Ok(StreamState::CloseWait));
    assert_eq!(peers[1].tcp.state(client), Ok(StreamState::FinWait2));
    peers[0].tcp.abort(server).unwrap();
    settle(&mut peers, later);
    assert_eq!(peers[0].tcp.ending(server), Ok(Some(StreamEnding::Aborted)));
    assert_eq!(peers[1].tcp.ending(client), Ok(Some(StreamEnding::ByPeer)));
    assert_eq!(peers[1].tcp.ends(client), Err(Error::NotThere));
    peers[0].tcp.release(server).unwrap();
    assert_eq!(peers[0].tcp.state(server), Err(Error::NoSocket));

    // Where nobody listens a reset answers, and where a listener was closed.
    assert_eq!(peers[0].tcp.close_listener(listener + 1), Err(Error::NotThere));
    assert_eq!(peers[0].tcp.close_listener(listener), Ok(()));
    let Peer { node, tcp } = &mut peers[1];
    let closed = tcp.connect(&mut node.host, later, 4002.into(), SERVER).unwrap();
    settle(&mut peers, later);
    assert_eq!(peers[1].tcp.ending(closed), Ok(Some(StreamEnding::Refused)));
    let Peer { node, tcp } = &mut peers[1];
    let refused = tcp.connect(&mut node.host, later, 4001.into(), IpEndpoint::new(SERVER.addr, 8)).unwrap();
    settle(&mut peers, later);
    assert_eq!(peers[1].tcp.ending(refused), Ok(Some(StreamEnding::Refused)));
}

#[test]
fn wrong_calls_are_refused() {
    let now = Instant::ZERO;
    let Peer { mut node, mut tcp } = peer(2, 1);
    let host = &mut node.host;
    let group = IpAddress::v4(224, 0, 0, 1);
    assert_eq!(tcp.listen(0.into(), 1), Err(Error::BadPort));
    assert_eq!(tcp.listen((group, 7).into(), 1), Err(Error::BadAddress));
    assert_eq!(tcp.connect(host, now, 0.into(), SERVER), Err(Error::BadPort));
    assert_eq!(tcp.connect(host, now, 4000.into(), IpEndpoint::new(group, 7)), Err(Error::BadAddress));
    let stream = tcp.connect(host, now, 4000.into(), SERVER).unwrap();
    assert_eq!(tcp.connect(host, now, 4000.into(), SERVER), Err(Error::InUse));
    assert_eq!(tcp.connect(host, now, 4001.into(), SERVER), Err(Error::TableFull));
    assert_eq!(tcp.close(stream), Ok(()));
    assert_eq!(tcp.state(stream), Ok(StreamState::Closed));

    // The host has four places, and all are the connections'.
    let mut settings = StreamSettings::new();
    assert_eq!(Streams::new(host, &settings, &SECRETS).unwrap_err(), Error::TableFull);
    tcp.free(host);
    (settings.ipv4, settings.ipv6) = (false, false);
    assert_eq!(Streams::new(host, &settings, &SECRETS).unwrap_err(), Error::BadArgument);
    for place in 0..4 {
        assert_eq!(host.udp_open(7.into(), Rooms::new(1, 64)), Ok(place));
    }
}
