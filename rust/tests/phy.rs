//! The devices over other devices. What is expected comes from smoltcp's documentation of them, and from the form of
//! files of frames (draft-ietf-opsawg-pcap).
#![cfg(feature = "std")]
use fumitorygate::phy::{
    Device, FaultInjector, FuzzInjector, Fuzzer, Medium, MemoryDevice, PcapMode, PcapWriter, RxToken, Tracer,
    TracerDirection, TxToken,
};
use fumitorygate::time::{Duration, Instant};
use std::sync::Mutex;

fn memory(frames: usize, length: usize) -> MemoryDevice {
    let mut device = MemoryDevice::new(Medium::Ethernet, 1514);
    device.incoming.extend((0..frames).map(|_| vec![0; length]));
    device
}

/// The next frame that comes.
fn receive(device: &mut impl Device, timestamp: Instant) -> Option<Vec<u8>> {
    let (rx, _) = device.receive(timestamp)?;
    Some(rx.consume(<[u8]>::to_vec))
}

fn send(device: &mut impl Device, timestamp: Instant, frame: &[u8]) {
    let tx = device.transmit(timestamp).unwrap();
    tx.consume(frame.len(), |buffer| buffer.copy_from_slice(frame));
}

#[test]
fn a_tracer_shows_what_comes_and_what_was_written() {
    type Shown = (i64, TracerDirection, Vec<u8>, String);
    static SHOWN: Mutex<Vec<Shown>> = Mutex::new(Vec::new());
    let mut device = Tracer::new(memory(1, 14), |timestamp, packet| {
        let shown = (timestamp.total_millis(), packet.direction, packet.buffer.to_vec(), packet.to_string());
        SHOWN.lock().unwrap().push(shown);
    });
    assert_eq!(receive(&mut device, Instant::from_millis(5)), Some(vec![0; 14]));
    assert_eq!(receive(&mut device, Instant::from_millis(6)), None);
    send(&mut device, Instant::from_millis(7), &[1; 15]);
    assert_eq!(device.get_ref().sent, [vec![1; 15]]);
    let zero = "00-00-00-00-00-00";
    let one = "01-01-01-01-01-01";
    assert_eq!(
        *SHOWN.lock().unwrap(),
        [
            (5, TracerDirection::RX, vec![0; 14], format!("-> EthernetII src={zero} dst={zero} type=0x0000")),
            (7, TracerDirection::TX, vec![1; 15], format!("<- EthernetII src={one} dst={one} type=0x0101")),
        ]
    );
}

#[test]
fn a_file_of_frames_has_its_form() {
    let written = |mode, medium| {
        let mut sink = Vec::new();
        let mut device = MemoryDevice::new(medium, 1514);
        device.incoming.push_back(vec![0xaa; 3]);
        let mut device = PcapWriter::new(device, &mut sink, mode);
        assert!(receive(&mut device, Instant::from_micros(2_000_007)).is_some());
        send(&mut device, Instant::from_micros(3_999_999), &[0xbb; 2]);
        assert_eq!(device.into_inner().sent, [vec![0xbb; 2]]);
        sink
    };
    let words = |words: &[u32]| words.iter().flat_map(|word| word.to_ne_bytes()).collect::<Vec<u8>>();
    let version = [2u16.to_ne_bytes(), 4u16.to_ne_bytes()].concat();
    let head = |link| [words(&[0xa1b2_c3d4]), version.clone(), words(&[0, 0, 65_535, link])].concat();
    let came = [words(&[2, 7, 3, 3]), vec![0xaa; 3]].concat();
    let sent = [words(&[3, 999_999, 2, 2]), vec![0xbb; 2]].concat();
    // A reply is a frame that is sent.
    for (mode, frames) in [(PcapMode::Both, 2), (PcapMode::RxOnly, 1), (PcapMode::TxOnly, 1)] {
        let mut sink = Vec::new();
        let mut device = PcapWriter::new(memory(1, 60), &mut sink, mode);
        let (rx, tx) = device.receive(Instant::ZERO).unwrap();
        rx.consume(|_| ());
        tx.consume(60, |frame| frame.fill(1));
        assert_eq!(sink.len(), 24 + frames * (16 + 60), "{mode:?}");
    }
    assert_eq!(written(PcapMode::Both, Medium::Ethernet), [head(1), came.clone(), sent.clone()].concat());
    assert_eq!(written(PcapMode::RxOnly, Medium::Ip), [head(101), came].concat());
    assert_eq!(written(PcapMode::TxOnly, Medium::Ip), [head(101), sent].concat());
}

#[test]
fn frames_are_lost_as_often_as_was_set() {
    for (percent, least, most) in [(0, 10_000, 10_000), (100, 0, 0), (30, 6_700, 7_300)] {
        let mut device = FaultInjector::new(memory(10_000, 20), 7);
        device.set_drop_chance(percent);
        assert_eq!(device.drop_chance(), percent);
        let came = (0..10_000).filter(|_| receive(&mut device, Instant::ZERO).is_some()).count();
        (0..10_000).for_each(|_| send(&mut device, Instant::ZERO, &[1; 20]));
        let sent = device.into_inner().sent.len();
        assert!((least..=most).contains(&came) && (least..=most).contains(&sent), "{percent}: {came}, {sent}");
    }
}

#[test]
fn one_bit_of_a_damaged_frame_is_turned_over() {
    let mut device = FaultInjector::new(memory(1_000, 60), 1);
    device.set_corrupt_chance(100);
    let bits = |frame: &[u8]| frame.iter().map(|octet| octet.count_ones()).sum::<u32>();
    let mut places = std::collections::BTreeSet::new();
    while let Some(frame) = receive(&mut device, Instant::ZERO) {
        assert_eq!(bits(&frame), 1);
        places.insert(frame);
    }
    assert!(places.len() > 300, "{}", places.len());
    send(&mut device, Instant::ZERO, &[0; 60]);
    assert_eq!(bits(&device.into_inner().sent[0]), 1);
}

#[test]
fn frames_that_are_too_long_or_too_many_are_dropped() {
    let mut device = FaultInjector::new(memory(1, 101), 1);
    device.set_max_packet_size(100);
    assert_eq!(receive(&mut device, Instant::ZERO), None);
    send(&mut device, Instant::ZERO, &[0; 101]);
    send(&mut device, Instant::ZERO, &[0; 100]);
    assert_eq!(device.into_inner().sent, [vec![0; 100]]);

    let mut device = FaultInjector::new(memory(12, 50), 1);
    device.set_max_rx_rate(2);
    device.set_max_tx_rate(3);
    device.set_bucket_interval(Duration::from_millis(100));
    assert_eq!((device.max_rx_rate(), device.max_tx_rate()), (2, 3));
    for (millis, came) in [(0, 2), (100, 0), (101, 2)] {
        let now = Instant::from_millis(millis);
        assert_eq!((0..4).filter(|_| receive(&mut device, now).is_some()).count(), came, "{millis}");
        (0..4).for_each(|_| send(&mut device, now, &[0; 50]));
    }
    assert_eq!(device.into_inner().sent.len(), 6);
}

#[test]
fn fuzzers_change_what_comes_and_what_was_written() {
    struct Sets(u8);
    impl Fuzzer for Sets {
        fn fuzz_packet(&self, packet_data: &mut [u8]) {
            packet_data[0] = self.0;
        }
    }
    let mut device = FuzzInjector::new(memory(1, 2), Sets(3), Sets(4));
    let (rx, tx) = device.receive(Instant::ZERO).unwrap();
    assert_eq!(rx.consume(<[u8]>::to_vec), [4, 0]);
    tx.consume(2, |frame| frame.fill(9));
    send(&mut device, Instant::ZERO, &[8; 2]);
    assert_eq!(device.into_inner().sent, [vec![3, 9], vec![3, 8]]);
}

#[test]
#[should_panic(expected = "percentage out of range")]
fn no_more_than_all_can_be_lost() {
    FaultInjector::new(memory(0, 0), 1).set_drop_chance(101);
}

/// An interface over all three answers as it does without them.
#[test]
fn an_interface_is_over_devices_over_devices() {
    use fumitorygate::iface::{Config, Interface, SocketSet};
    use fumitorygate::wire::{
        ArpOperation, ArpPacket, ArpRepr, EthernetAddress, EthernetFrame, EthernetProtocol, EthernetRepr, Ipv4Address,
    };
    let (own, peer) = (EthernetAddress([2, 0, 0, 0, 0, 1]), EthernetAddress([2, 0, 0, 0, 0, 2]));
    let (own_addr, peer_addr) = (Ipv4Address::new(10, 0, 0, 1), Ipv4Address::new(10, 0, 0, 2));
    let mut frame = vec![0; 42];
    let mut view = EthernetFrame::new_unchecked(&mut frame[..]);
    let ethertype = EthernetProtocol::Arp;
    EthernetRepr { src_addr: peer, dst_addr: EthernetAddress::BROADCAST, ethertype }.emit(&mut view);
    let asks = ArpRepr::EthernetIpv4 {
        operation: ArpOperation::Request,
        source_hardware_addr: peer,
        source_protocol_addr: peer_addr,
        target_hardware_addr: EthernetAddress([0; 6]),
        target_protocol_addr: own_addr,
    };
    asks.emit(&mut ArpPacket::new_unchecked(view.payload_mut()));
    let mut device = MemoryDevice::new(Medium::Ethernet, 1514);
    device.incoming.push_back(frame);
    let mut file = Vec::new();
    let device = PcapWriter::new(FaultInjector::new(device, 1), &mut file, PcapMode::Both);
    let mut device = Tracer::new(device, |_, packet| assert!(packet.to_string().contains("ARP type=Ethernet+IPv4")));
    let mut iface = Interface::new(Config::new(own.into()), &mut device, Instant::ZERO);
    iface.update_ip_addrs(|list| list.push("10.0.0.1/8".parse().unwrap()).unwrap());
    let mut sockets = SocketSet::of(&iface);
    iface.poll(Instant::ZERO, &mut device, &mut sockets);
    let sent = device.into_inner().into_inner().into_inner().sent;
    assert_eq!(sent.len(), 1);
    assert_eq!(EthernetFrame::new_checked(&sent[0][..]).unwrap().dst_addr(), peer);
    assert_eq!(file.len(), 24 + 2 * (16 + 42));
}
