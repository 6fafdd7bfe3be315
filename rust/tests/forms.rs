//! The forms of `wire`. Octets are RFCs' or smoltcp's tests', and what the library, whose forms are others and proved,
//! reads and writes.
use fumitorygate::ChecksumCapabilities;
use fumitorygate::time::Duration;
use fumitorygate::wire::{
    ArpOperation, ArpPacket, ArpRepr, Error, EthernetAddress, EthernetFrame, EthernetProtocol, EthernetRepr,
    Icmpv4DstUnreachable, Icmpv4Packet, Icmpv4Repr, Icmpv4TimeExceeded, Icmpv6Message, Icmpv6Packet,
    Icmpv6ParamProblem, Icmpv6Repr, IgmpPacket, IgmpRepr, IgmpVersion, IpAddress, IpProtocol, Ipv4Address, Ipv4Packet,
    Ipv4Repr, Ipv6Address, Ipv6Packet, Ipv6Repr, MldAddressRecord, MldAddressRecordRepr, MldRecordType, MldRepr,
    NdiscNeighborFlags, NdiscOption, NdiscOptionRepr, NdiscOptionType, NdiscPrefixInfoFlags, NdiscPrefixInformation,
    NdiscRedirectedHeader, NdiscRepr, NdiscRouterFlags, PrettyPrinter, RawHardwareAddress, UdpPacket, UdpRepr,
};

const SRC: Ipv4Address = Ipv4Address::new(192, 168, 1, 1);
const DST: Ipv4Address = Ipv4Address::new(192, 168, 1, 2);
const SRC6: Ipv6Address = Ipv6Address::new(0xfe80, 0, 0, 0, 0, 0, 0, 1);
const DST6: Ipv6Address = Ipv6Address::new(0xfe80, 0, 0, 0, 0, 0, 0, 2);

fn caps() -> ChecksumCapabilities {
    ChecksumCapabilities::default()
}

/// RFC 1071 3: the sum of these octets is 0xddf2.
#[test]
fn the_checksum_is_that_of_the_example() {
    let mut octets = [0, 0, 0, 0, 0, 0, 0, 0, 0x00, 0x01, 0xf2, 0x03, 0xf4, 0xf5, 0xf6, 0xf7];
    let mut packet = Icmpv4Packet::new_unchecked(&mut octets);
    packet.fill_checksum();
    assert_eq!(packet.checksum(), !0xddf2);
    assert!(packet.verify_checksum());
}

#[test]
fn a_frame_of_ethernet() {
    let octets = [1, 2, 3, 4, 5, 6, 0x11, 0x12, 0x13, 0x14, 0x15, 0x16, 0x08, 0x00, 0xaa, 0xff];
    let frame = EthernetFrame::new_checked(&octets[..]).unwrap();
    let repr = EthernetRepr::parse(&frame).unwrap();
    assert_eq!(repr.dst_addr, EthernetAddress([1, 2, 3, 4, 5, 6]));
    assert_eq!(repr.src_addr, EthernetAddress([0x11, 0x12, 0x13, 0x14, 0x15, 0x16]));
    assert_eq!((repr.ethertype, frame.payload()), (EthernetProtocol::Ipv4, &[0xaa, 0xff][..]));
    let mut written = [0xa5; 16];
    let mut frame = EthernetFrame::new_unchecked(&mut written[..]);
    repr.emit(&mut frame);
    frame.payload_mut().copy_from_slice(&[0xaa, 0xff]);
    assert_eq!(written, octets);
    assert_eq!(EthernetFrame::new_checked(&octets[..13]).err(), Some(Error));
    for (number, name) in [(0x0806, "ARP"), (0x86dd, "IPv6"), (0x0800, "IPv4"), (0x1234, "0x1234")] {
        assert_eq!(EthernetProtocol::from(number).to_string(), name);
    }
}

/// RFC 826: the fields in their order.
#[test]
fn a_packet_of_arp() {
    let octets = [
        0x00, 0x01, 0x08, 0x00, 0x06, 0x04, 0x00, 0x01, 0x11, 0x12, 0x13, 0x14, 0x15, 0x16, 0x21, 0x22, 0x23, 0x24,
        0x31, 0x32, 0x33, 0x34, 0x35, 0x36, 0x41, 0x42, 0x43, 0x44,
    ];
    let repr = ArpRepr::EthernetIpv4 {
        operation: ArpOperation::Request,
        source_hardware_addr: EthernetAddress([0x11, 0x12, 0x13, 0x14, 0x15, 0x16]),
        source_protocol_addr: Ipv4Address::new(0x21, 0x22, 0x23, 0x24),
        target_hardware_addr: EthernetAddress([0x31, 0x32, 0x33, 0x34, 0x35, 0x36]),
        target_protocol_addr: Ipv4Address::new(0x41, 0x42, 0x43, 0x44),
    };
    assert_eq!(ArpRepr::parse(&ArpPacket::new_checked(&octets[..]).unwrap()), Ok(repr));
    let mut written = [0xa5; 28];
    repr.emit(&mut ArpPacket::new_unchecked(&mut written[..]));
    assert_eq!((written, repr.buffer_len()), (octets, 28));
    assert_eq!(ArpPacket::new_checked(&octets[..27]).err(), Some(Error));
    // Another kind of hardware, protocol or length isn't that of IPv4 on Ethernet.
    for (at, value) in [(1, 6), (3, 1), (4, 5), (5, 3)] {
        let mut other = octets;
        other[at] = value;
        assert_eq!(ArpPacket::new_checked(&other[..]).and_then(|packet| ArpRepr::parse(&packet)), Err(Error));
    }
}

/// RFC 791 3.1: the fields; a packet of 30 octets, one in fragments, with a checksum that fits.
const FRAGMENT: [u8; 30] = [
    0x45, 0x21, 0x00, 0x1e, 0x01, 0x02, 0x62, 0x03, 0x1a, 0x01, 0xd5, 0x4d, 0x11, 0x12, 0x13, 0x14, 0x21, 0x22, 0x23,
    0x24, 0xaa, 0x00, 0x00, 0x00, 0x00, 0x00, 0x00, 0x00, 0x00, 0xff,
];

#[test]
fn a_packet_of_ipv4() {
    let packet = Ipv4Packet::new_checked(&FRAGMENT[..]).unwrap();
    assert_eq!((packet.version(), packet.header_len(), packet.dscp(), packet.ecn()), (4, 20, 8, 1));
    assert_eq!((packet.total_len(), packet.ident(), packet.frag_offset()), (30, 0x102, 0x203 * 8));
    assert_eq!((packet.dont_frag(), packet.more_frags(), packet.hop_limit()), (true, true, 0x1a));
    assert!(packet.verify_checksum());
    let repr = Ipv4Repr {
        src_addr: Ipv4Address::new(0x11, 0x12, 0x13, 0x14),
        dst_addr: Ipv4Address::new(0x21, 0x22, 0x23, 0x24),
        next_header: IpProtocol::Icmp,
        payload_len: 10,
        hop_limit: 0x1a,
    };
    assert_eq!(Ipv4Repr::parse(&packet, &caps()), Ok(repr));
    let mut written = [0xa5; 30];
    let mut packet = Ipv4Packet::new_unchecked(&mut written[..]);
    repr.emit(&mut packet, &caps());
    packet.set_dscp(8);
    packet.set_ecn(1);
    packet.set_ident(0x102);
    packet.set_more_frags(true);
    packet.set_frag_offset(0x203 * 8);
    packet.fill_checksum();
    packet.payload_mut().copy_from_slice(&FRAGMENT[20..]);
    assert_eq!(written, FRAGMENT);
    // RFC 791 3.1: offsets are of 13 bits, beside the flags.
    let mut packet = Ipv4Packet::new_unchecked(&mut written[..]);
    packet.set_frag_offset(0x1fff * 8);
    assert_eq!((packet.frag_offset(), packet.more_frags(), packet.dont_frag()), (0x1fff * 8, true, true));
    packet.clear_flags();
    assert_eq!((packet.frag_offset(), packet.more_frags(), packet.dont_frag()), (0x1fff * 8, false, false));
}

#[test]
fn what_is_no_packet_of_ipv4() {
    let read = |octets: &[u8]| Ipv4Packet::new_checked(octets).and_then(|packet| Ipv4Repr::parse(&packet, &caps()));
    assert!(read(&FRAGMENT).is_ok());
    assert!(read(&[&FRAGMENT[..], &[0; 16]].concat()).is_ok());
    assert_eq!(read(&FRAGMENT[..29]), Err(Error));
    // Version 5, a header of 16 octets, one of 60, a length of 19, a wrong checksum.
    for (at, value, is_checksum) in
        [(0, 0x55, false), (0, 0x44, false), (0, 0x4f, false), (3, 19, false), (11, 0, true)]
    {
        let mut other = FRAGMENT;
        other[at] = value;
        assert_eq!(read(&other), Err(Error));
        let unverified = Ipv4Repr::parse(&Ipv4Packet::new_unchecked(&other[..]), &ChecksumCapabilities::ignored());
        assert_eq!(unverified.is_ok(), is_checksum, "{at}: {value}");
    }
    let mut other = FRAGMENT;
    other[11] = 0;
    assert!(Ipv4Repr::parse(&Ipv4Packet::new_unchecked(&other[..]), &ChecksumCapabilities::ignored()).is_ok());
}

/// RFC 8200 3.
#[test]
fn a_packet_of_ipv6() {
    let mut octets = [0; 44];
    octets[..8].copy_from_slice(&[0x6a, 0xb1, 0x23, 0x45, 0x00, 0x04, 0x11, 0x40]);
    octets[8..24].copy_from_slice(&SRC6.octets());
    octets[24..40].copy_from_slice(&DST6.octets());
    let packet = Ipv6Packet::new_checked(&octets[..]).unwrap();
    assert_eq!((packet.version(), packet.traffic_class(), packet.flow_label()), (6, 0xab, 0x12345));
    assert_eq!((packet.payload(), packet.total_len()), (&[0; 4][..], 44));
    let repr = Ipv6Repr { src_addr: SRC6, dst_addr: DST6, next_header: IpProtocol::Udp, payload_len: 4, hop_limit: 64 };
    assert_eq!(Ipv6Repr::parse(&packet), Ok(repr));
    let mut written = [0xa5; 44];
    let mut packet = Ipv6Packet::new_unchecked(&mut written[..]);
    repr.emit(&mut packet);
    packet.set_traffic_class(0xab);
    packet.set_flow_label(0x12345);
    packet.payload_mut().fill(0);
    assert_eq!(written, octets);
    assert_eq!(Ipv6Packet::new_checked(&octets[..43]).err(), Some(Error));
    octets[0] = 0x4a;
    assert_eq!(Ipv6Repr::parse(&Ipv6Packet::new_unchecked(&octets[..])), Err(Error));
}

const DATAGRAM: [u8; 12] = [0xbf, 0x00, 0x00, 0x35, 0x00, 0x0c, 0x12, 0x4d, 0xaa, 0x00, 0x00, 0xff];

/// RFC 768.
#[test]
fn a_datagram() {
    let (src, dst) = (SRC.into(), DST.into());
    let packet = UdpPacket::new_checked(&DATAGRAM[..]).unwrap();
    let repr = UdpRepr { src_port: 48896, dst_port: 53 };
    assert_eq!(UdpRepr::parse(&packet, &src, &dst, &caps()), Ok(repr));
    assert_eq!((packet.payload(), packet.checksum()), (&DATAGRAM[8..], 0x124d));
    let mut written = [0xa5; 12];
    let mut packet = UdpPacket::new_unchecked(&mut written[..]);
    repr.emit(&mut packet, &src, &dst, 4, |payload| payload.copy_from_slice(&DATAGRAM[8..]), &caps());
    assert_eq!(written, DATAGRAM);
    // A sum that is 0 is written as 0xffff, since 0 is none.
    let mut packet = UdpPacket::new_unchecked(&mut written[..]);
    UdpRepr { src_port: 1, dst_port: 31881 }.emit(&mut packet, &src, &dst, 4, |payload| payload.fill(0), &caps());
    packet.payload_mut()[2..].copy_from_slice(&[0, 0]);
    let sum = 0xc0a8u32 + 0x0101 + 0xc0a8 + 0x0102 + 17 + 12 + 1 + 31881 + 12;
    let rest = 0xffff - ((sum & 0xffff) + (sum >> 16));
    packet.payload_mut()[..2].copy_from_slice(&(rest as u16).to_be_bytes());
    packet.fill_checksum(&src, &dst);
    assert_eq!(packet.checksum(), 0xffff);
    assert!(packet.verify_checksum(&src, &dst));
}

/// RFC 768, and RFC 8200 8.1: over IPv6 a datagram has a checksum.
#[test]
fn what_is_no_datagram() {
    let read = |octets: &[u8], src: IpAddress, dst: IpAddress| {
        UdpPacket::new_checked(octets).and_then(|packet| UdpRepr::parse(&packet, &src, &dst, &caps()))
    };
    let changed = |changes: &[(usize, u8)]| {
        let mut octets = DATAGRAM;
        changes.iter().for_each(|(at, value)| octets[*at] = *value);
        octets
    };
    assert!(read(&DATAGRAM, SRC.into(), DST.into()).is_ok());
    assert_eq!(read(&DATAGRAM[..11], SRC.into(), DST.into()), Err(Error));
    let none = changed(&[(6, 0), (7, 0)]);
    assert!(read(&none, SRC.into(), DST.into()).is_ok());
    assert_eq!(read(&none, SRC6.into(), DST6.into()), Err(Error));
    // To port 0, shorter than a header, longer than it is, a wrong checksum.
    for (changes, is_checksum) in
        [(&[(3, 0), (6, 0), (7, 0)][..], false), (&[(5, 7)], false), (&[(5, 13)], false), (&[(7, 0)], true)]
    {
        let octets = changed(changes);
        assert_eq!(read(&octets, SRC.into(), DST.into()), Err(Error));
        let unverified = UdpPacket::new_checked(&octets[..])
            .and_then(|packet| UdpRepr::parse(&packet, &SRC.into(), &DST.into(), &ChecksumCapabilities::ignored()));
        assert_eq!(unverified.is_ok(), is_checksum, "{changes:?}");
    }
}

/// RFC 792, RFC 4443 4: echo messages.
#[test]
fn messages_that_ask_for_an_echo() {
    let data = &[0xaa, 0x00, 0x00, 0xff][..];
    let octets = [0x08, 0x00, 0x8e, 0xfe, 0x12, 0x34, 0xab, 0xcd, 0xaa, 0x00, 0x00, 0xff];
    let repr = Icmpv4Repr::EchoRequest { ident: 0x1234, seq_no: 0xabcd, data };
    assert_eq!(Icmpv4Repr::parse(&Icmpv4Packet::new_checked(&octets[..]).unwrap(), &caps()), Ok(repr));
    let mut written = [0xa5; 12];
    repr.emit(&mut Icmpv4Packet::new_unchecked(&mut written[..]), &caps());
    assert_eq!((written, repr.buffer_len()), (octets, 12));
    written[11] ^= 1;
    let wrong = Icmpv4Packet::new_checked(&written[..]).unwrap();
    assert_eq!(Icmpv4Repr::parse(&wrong, &caps()), Err(Error));
    assert!(Icmpv4Repr::parse(&wrong, &ChecksumCapabilities::ignored()).is_ok());

    let octets = [0x80, 0x00, 0x19, 0xb3, 0x12, 0x34, 0xab, 0xcd, 0xaa, 0x00, 0x00, 0xff];
    let repr = Icmpv6Repr::EchoRequest { ident: 0x1234, seq_no: 0xabcd, data };
    assert_eq!(Icmpv6Repr::parse(&SRC6, &DST6, &Icmpv6Packet::new_checked(&octets[..]).unwrap(), &caps()), Ok(repr));
    repr.emit(&SRC6, &DST6, &mut Icmpv6Packet::new_unchecked(&mut written[..]), &caps());
    assert_eq!((written, repr.buffer_len()), (octets, 12));
    // With a code, another type, another source, or too short.
    let read = |octets: &[u8], src: &Ipv6Address| {
        Icmpv6Packet::new_checked(octets)
            .and_then(|packet| Icmpv6Repr::parse(src, &DST6, &packet, &caps()).map(|_| packet.msg_type()))
    };
    assert_eq!(read(&octets, &SRC6), Ok(Icmpv6Message::EchoRequest));
    assert_eq!(read(&octets, &Ipv6Address::LOCALHOST), Err(Error));
    assert_eq!(read(&octets[..7], &SRC6), Err(Error));
    for (kind, code) in [(128, 1), (135, 0), (200, 0)] {
        let mut other = octets;
        let mut packet = Icmpv6Packet::new_unchecked(&mut other[..]);
        packet.set_msg_type(kind.into());
        packet.set_msg_code(code);
        packet.fill_checksum(&SRC6, &DST6);
        assert_eq!(read(&other, &SRC6), Err(Error));
    }
}

/// RFC 792: type 3 and 11, the header and 8 octets; RFC 4443 3: types 1 to 4.
#[test]
fn messages_that_tell_of_errors() {
    let data = &[0xbf, 0x00, 0x00, 0x35, 0x00, 0x0c, 0x12, 0x4d][..];
    let header = Ipv4Repr { src_addr: SRC, dst_addr: DST, next_header: IpProtocol::Udp, payload_len: 8, hop_limit: 64 };
    for (repr, kind, code) in [
        (Icmpv4Repr::DstUnreachable { reason: Icmpv4DstUnreachable::PortUnreachable, header, data }, 3, 3),
        (Icmpv4Repr::TimeExceeded { reason: Icmpv4TimeExceeded::FragExpired, header, data }, 11, 1),
    ] {
        let mut octets = vec![0xa5; repr.buffer_len()];
        repr.emit(&mut Icmpv4Packet::new_unchecked(&mut octets[..]), &caps());
        assert_eq!((octets.len(), octets[0], octets[1], &octets[4..8]), (36, kind, code, &[0; 4][..]));
        let read = |octets: &[u8]| {
            let packet = Icmpv4Packet::new_unchecked(octets);
            Icmpv4Repr::parse(&packet, &ChecksumCapabilities::ignored()).map(|repr| repr.buffer_len())
        };
        assert_eq!(Icmpv4Repr::parse(&Icmpv4Packet::new_checked(&octets[..]).unwrap(), &caps()), Ok(repr));
        // Seven octets behind the header, or half a header.
        assert_eq!((read(&octets), read(&octets[..35]), read(&octets[..20])), (Ok(36), Err(Error), Err(Error)));
    }
    let header =
        Ipv6Repr { src_addr: SRC6, dst_addr: DST6, next_header: IpProtocol::Udp, payload_len: 8, hop_limit: 64 };
    for (repr, kind, code, rest) in [
        (Icmpv6Repr::DstUnreachable { reason: 4.into(), header, data }, 1, 4, 0),
        (Icmpv6Repr::PktTooBig { mtu: 1280, header, data }, 2, 0, 1280),
        (Icmpv6Repr::TimeExceeded { reason: 1.into(), header, data }, 3, 1, 0),
        (
            Icmpv6Repr::ParamProblem { reason: Icmpv6ParamProblem::UnrecognizedNxtHdr, pointer: 40, header, data },
            4,
            1,
            40,
        ),
    ] {
        let mut octets = vec![0xa5; repr.buffer_len()];
        repr.emit(&DST6, &SRC6, &mut Icmpv6Packet::new_unchecked(&mut octets[..]), &caps());
        assert_eq!(
            (octets.len(), octets[0], octets[1], octets[4..8].to_vec()),
            (56, kind, code, u32::to_be_bytes(rest).to_vec())
        );
        let packet = Icmpv6Packet::new_checked(&octets[..]).unwrap();
        assert_eq!(Icmpv6Repr::parse(&DST6, &SRC6, &packet, &caps()), Ok(repr));
        let short = Icmpv6Packet::new_unchecked(&octets[..47]);
        assert_eq!(Icmpv6Repr::parse(&DST6, &SRC6, &short, &ChecksumCapabilities::ignored()), Err(Error));
    }
}

/// RFC 2236 2, and the codes of times in RFC 3376 4.1.1.
#[test]
fn messages_of_igmp() {
    let report =
        IgmpRepr::MembershipReport { group_addr: Ipv4Address::new(225, 0, 0, 37), version: IgmpVersion::Version2 };
    let leave = IgmpRepr::LeaveGroup { group_addr: Ipv4Address::new(224, 0, 6, 150) };
    for (octets, repr) in [
        ([0x16, 0x00, 0x08, 0xda, 0xe1, 0x00, 0x00, 0x25], report),
        ([0x17, 0x00, 0x02, 0x69, 0xe0, 0x00, 0x06, 0x96], leave),
    ] {
        let packet = IgmpPacket::new_checked(&octets[..]).unwrap();
        assert!(packet.verify_checksum());
        assert_eq!(IgmpRepr::parse(&packet), Ok(repr));
        let mut written = [0xa5; 8];
        repr.emit(&mut IgmpPacket::new_unchecked(&mut written[..]));
        assert_eq!((written, repr.buffer_len()), (octets, 8));
    }
    let read = |octets: [u8; 8]| IgmpRepr::parse(&IgmpPacket::new_unchecked(&octets[..]));
    let query = |code| read([0x11, code, 0, 0, 0, 0, 0, 0]);
    let asked = |tenths: u64, version| {
        Ok(IgmpRepr::MembershipQuery {
            max_resp_time: Duration::from_millis(100 * tenths),
            group_addr: Ipv4Address::UNSPECIFIED,
            version,
        })
    };
    assert_eq!(query(0), asked(0, IgmpVersion::Version1));
    // 0x80 is (0 | 16) << 3, and 0xff is (15 | 16) << 10.
    for (code, tenths) in [(1, 1), (100, 100), (127, 127), (0x80, 128), (0x8f, 248), (0xff, 31744)] {
        let repr = query(code);
        assert_eq!(repr, asked(tenths, IgmpVersion::Version2));
        let mut written = [0xa5; 8];
        repr.unwrap().emit(&mut IgmpPacket::new_unchecked(&mut written[..]));
        assert_eq!(written[..2], [0x11, code]);
    }
    for octets in [[0x16, 0, 0, 0, 10, 0, 0, 1], [0x99, 0, 0, 0, 224, 0, 0, 1]] {
        assert_eq!(read(octets), Err(Error));
    }
    assert_eq!(IgmpPacket::new_checked(&[0u8; 7][..]).err(), Some(Error));
}

/// A message of ICMPv6 is read as these values, and they are written as it.
fn reads_and_writes(octets: &[u8], repr: Icmpv6Repr<'_>) {
    let packet = Icmpv6Packet::new_checked(octets).unwrap();
    assert!(packet.verify_checksum(&SRC6, &DST6));
    assert_eq!(Icmpv6Repr::parse(&SRC6, &DST6, &packet, &caps()), Ok(repr));
    let mut written = vec![0xa5; octets.len()];
    repr.emit(&SRC6, &DST6, &mut Icmpv6Packet::new_unchecked(&mut written[..]), &caps());
    assert_eq!((&written[..], repr.buffer_len()), (octets, octets.len()));
    // What is cut off is missing, and so is what a code other than 0 says.
    for len in [0, 7, packet.header_len() - 1] {
        assert_eq!(Icmpv6Packet::new_checked(&octets[..len]).err(), Some(Error));
    }
    let mut other = octets.to_vec();
    other[1] = 1;
    let unverified = ChecksumCapabilities::ignored();
    let read = Icmpv6Packet::new_checked(&other[..]).unwrap();
    assert_eq!(Icmpv6Repr::parse(&SRC6, &DST6, &read, &unverified), Err(Error));
    other[2] ^= 1;
    let read = Icmpv6Packet::new_checked(&other[..]).unwrap();
    assert_eq!(Icmpv6Repr::parse(&SRC6, &DST6, &read, &caps()), Err(Error));
}

const LLADDR: EthernetAddress = EthernetAddress([2, 0, 0, 0, 0, 1]);
const GROUP: Ipv6Address = Ipv6Address::new(0xff02, 0, 0, 0, 0, 0, 0, 0x77);

/// RFC 4861 4.1, 4.2 and 4.6: the fields in their order.
#[test]
fn messages_of_routers() {
    let lladdr = Some(RawHardwareAddress::from(LLADDR));
    let solicitation = [0x85, 0x00, 0x7a, 0xae, 0x00, 0x00, 0x00, 0x00, 0x01, 0x01, 0x02, 0x00, 0x00, 0x00, 0x00, 0x01];
    reads_and_writes(&solicitation, Icmpv6Repr::Ndisc(NdiscRepr::RouterSolicit { lladdr }));
    let advertisement = [
        0x86, 0x00, 0xb6, 0x45, 0x40, 0x80, 0x03, 0x84, 0x00, 0x00, 0x75, 0x30, 0x00, 0x00, 0x03, 0xe8, 0x01, 0x01,
        0x02, 0x00, 0x00, 0x00, 0x00, 0x01, 0x05, 0x01, 0x00, 0x00, 0x00, 0x00, 0x05, 0xdc, 0x03, 0x04, 0x40, 0xc0,
        0x00, 0x01, 0x51, 0x80, 0x00, 0x00, 0x38, 0x40, 0x00, 0x00, 0x00, 0x00, 0x20, 0x01, 0x0d, 0xb8, 0x00, 0x00,
        0x00, 0x00, 0x00, 0x00, 0x00, 0x00, 0x00, 0x00, 0x00, 0x00,
    ];
    let prefix = NdiscPrefixInformation {
        prefix_len: 64,
        flags: NdiscPrefixInfoFlags::ON_LINK | NdiscPrefixInfoFlags::ADDRCONF,
        valid_lifetime: Duration::from_secs(86400),
        preferred_lifetime: Duration::from_secs(14400),
        prefix: Ipv6Address::new(0x2001, 0xdb8, 0, 0, 0, 0, 0, 0),
    };
    let repr = NdiscRepr::RouterAdvert {
        hop_limit: 64,
        flags: NdiscRouterFlags::MANAGED,
        router_lifetime: Duration::from_secs(900),
        reachable_time: Duration::from_secs(30),
        retrans_time: Duration::from_secs(1),
        lladdr,
        mtu: Some(1500),
        prefix_info: Some(prefix),
    };
    reads_and_writes(&advertisement, Icmpv6Repr::Ndisc(repr));
    assert_eq!(Icmpv6Packet::new_unchecked(&advertisement[..]).header_len(), 16);
}

/// RFC 4861 4.3, 4.4, 4.5.
#[test]
fn messages_of_neighbors() {
    let lladdr = Some(RawHardwareAddress::from(LLADDR));
    let solicitation = [
        0x87, 0x00, 0x7a, 0x1b, 0x00, 0x00, 0x00, 0x00, 0xfe, 0x80, 0x00, 0x00, 0x00, 0x00, 0x00, 0x00, 0x00, 0x00,
        0x00, 0x00, 0x00, 0x00, 0x00, 0x02, 0x01, 0x01, 0x02, 0x00, 0x00, 0x00, 0x00, 0x01,
    ];
    reads_and_writes(&solicitation, Icmpv6Repr::Ndisc(NdiscRepr::NeighborSolicit { target_addr: DST6, lladdr }));
    let advertisement = [
        0x88, 0x00, 0x18, 0x1b, 0x60, 0x00, 0x00, 0x00, 0xfe, 0x80, 0x00, 0x00, 0x00, 0x00, 0x00, 0x00, 0x00, 0x00,
        0x00, 0x00, 0x00, 0x00, 0x00, 0x02, 0x02, 0x01, 0x02, 0x00, 0x00, 0x00, 0x00, 0x01,
    ];
    let flags = NdiscNeighborFlags::SOLICITED | NdiscNeighborFlags::OVERRIDE;
    let repr = NdiscRepr::NeighborAdvert { flags, target_addr: DST6, lladdr };
    reads_and_writes(&advertisement, Icmpv6Repr::Ndisc(repr));
    assert!(flags.contains(NdiscNeighborFlags::OVERRIDE) && !flags.contains(NdiscNeighborFlags::ROUTER));
    // A packet of four octets to another network, and what fills the option up to a multiple of eight.
    let redirect = [
        0x89, 0x00, 0xe2, 0xb4, 0x00, 0x00, 0x00, 0x00, 0xfe, 0x80, 0x00, 0x00, 0x00, 0x00, 0x00, 0x00, 0x00, 0x00,
        0x00, 0x00, 0x00, 0x00, 0x00, 0x07, 0x20, 0x01, 0x0d, 0xb8, 0x00, 0x00, 0x00, 0x00, 0x00, 0x00, 0x00, 0x00,
        0x00, 0x00, 0x00, 0x09, 0x02, 0x01, 0x02, 0x00, 0x00, 0x00, 0x00, 0x01, 0x04, 0x07, 0x00, 0x00, 0x00, 0x00,
        0x00, 0x00, 0x60, 0x00, 0x00, 0x00, 0x00, 0x04, 0x11, 0x40, 0xfe, 0x80, 0x00, 0x00, 0x00, 0x00, 0x00, 0x00,
        0x00, 0x00, 0x00, 0x00, 0x00, 0x00, 0x00, 0x02, 0x20, 0x01, 0x0d, 0xb8, 0x00, 0x00, 0x00, 0x00, 0x00, 0x00,
        0x00, 0x00, 0x00, 0x00, 0x00, 0x09, 0x61, 0x62, 0x63, 0x64, 0x00, 0x00, 0x00, 0x00,
    ];
    let dest_addr = Ipv6Address::new(0x2001, 0xdb8, 0, 0, 0, 0, 0, 9);
    let header =
        Ipv6Repr { src_addr: DST6, dst_addr: dest_addr, next_header: IpProtocol::Udp, payload_len: 4, hop_limit: 64 };
    let repr = NdiscRepr::Redirect {
        target_addr: Ipv6Address::new(0xfe80, 0, 0, 0, 0, 0, 0, 7),
        dest_addr,
        lladdr,
        redirected_hdr: Some(NdiscRedirectedHeader { header, data: b"abcd" }),
    };
    reads_and_writes(&redirect, Icmpv6Repr::Ndisc(repr));
}

/// RFC 4861 4.6: an option has at least eight octets, and one that isn't known is skipped.
#[test]
fn options_of_neighbor_discovery() {
    let read = |octets: &[u8]| NdiscOption::new_checked(octets).and_then(|it| NdiscOptionRepr::parse(&it).map(|_| ()));
    assert_eq!(read(&[1, 1, 2, 0, 0, 0, 0, 1]), Ok(()));
    for refused in [
        &[1, 0, 2, 0, 0, 0, 0, 1][..],
        &[1, 1, 2, 0, 0, 0, 0],
        &[1, 2, 2, 0, 0, 0, 0, 1],
        &[1, 2, 2, 0, 0, 0, 0, 1, 0, 0, 0, 0, 0, 0, 0, 0],
        &[3, 1, 64, 0, 0, 0, 0, 0],
        &[4, 1, 0, 0, 0, 0, 0, 0],
        &[5, 2, 0, 0, 0, 0, 5, 0xdc, 0, 0, 0, 0, 0, 0, 0, 0],
    ] {
        assert_eq!(read(refused), Err(Error), "{refused:?}");
    }
    let unknown = [24, 1, 1, 2, 3, 4, 5, 6];
    let option = NdiscOption::new_checked(&unknown[..]).unwrap();
    let repr = NdiscOptionRepr::Unknown { type_: 24, length: 1, data: &[1, 2, 3, 4, 5, 6] };
    assert_eq!((NdiscOptionRepr::parse(&option), option.option_type()), (Ok(repr), NdiscOptionType::Unknown(24)));
    let mut written = [0xa5; 8];
    repr.emit(&mut NdiscOption::new_unchecked(&mut written[..]));
    assert_eq!(written, unknown);
    // Behind an unknown option the address is found; behind a length of 0 nothing is read.
    let message = |option: [u8; 8]| {
        let mut octets = vec![135, 0, 0, 0, 0, 0, 0, 0];
        octets.extend(DST6.octets());
        octets.extend(option);
        octets.extend([1, 1, 2, 0, 0, 0, 0, 1]);
        octets
    };
    let none = ChecksumCapabilities::ignored();
    let octets = message(unknown);
    let packet = Icmpv6Packet::new_checked(&octets[..]).unwrap();
    let asks = NdiscRepr::NeighborSolicit { target_addr: DST6, lladdr: Some(LLADDR.into()) };
    assert_eq!(Icmpv6Repr::parse(&SRC6, &DST6, &packet, &none), Ok(Icmpv6Repr::Ndisc(asks)));
    let octets = message([24, 0, 1, 2, 3, 4, 5, 6]);
    let packet = Icmpv6Packet::new_checked(&octets[..]).unwrap();
    assert_eq!(Icmpv6Repr::parse(&SRC6, &DST6, &packet, &none), Err(Error));
}

/// RFC 3810 5.1 and 5.2: a query with a source, and a report of two groups.
#[test]
fn messages_of_listener_discovery() {
    let query = [
        0x82, 0x00, 0x45, 0x61, 0x03, 0xe8, 0x00, 0x00, 0xff, 0x02, 0x00, 0x00, 0x00, 0x00, 0x00, 0x00, 0x00, 0x00,
        0x00, 0x00, 0x00, 0x00, 0x00, 0x77, 0x0a, 0x12, 0x00, 0x01, 0x20, 0x01, 0x0d, 0xb8, 0x00, 0x00, 0x00, 0x00,
        0x00, 0x00, 0x00, 0x00, 0x00, 0x00, 0x00, 0x05,
    ];
    let source = Ipv6Address::new(0x2001, 0xdb8, 0, 0, 0, 0, 0, 5).octets();
    let repr = MldRepr::Query {
        max_resp_code: 1000,
        mcast_addr: GROUP,
        s_flag: true,
        qrv: 2,
        qqic: 0x12,
        num_srcs: 1,
        data: &source,
    };
    reads_and_writes(&query, Icmpv6Repr::Mld(repr));
    // One of version 1 has 24 octets (RFC 2710 3).
    assert_eq!(Icmpv6Packet::new_checked(&query[..24]).err(), Some(Error));
    let report = [
        0x8f, 0x00, 0x6d, 0x99, 0x00, 0x00, 0x00, 0x02, 0x04, 0x00, 0x00, 0x00, 0xff, 0x02, 0x00, 0x00, 0x00, 0x00,
        0x00, 0x00, 0x00, 0x00, 0x00, 0x00, 0x00, 0x00, 0x00, 0x77, 0x03, 0x00, 0x00, 0x00, 0xff, 0x02, 0x00, 0x00,
        0x00, 0x00, 0x00, 0x00, 0x00, 0x00, 0x00, 0x00, 0x00, 0x00, 0x00, 0x78,
    ];
    reads_and_writes(&report, Icmpv6Repr::Mld(MldRepr::Report { nr_mcast_addr_rcrds: 2, data: &report[8..] }));
    let left = Ipv6Address::new(0xff02, 0, 0, 0, 0, 0, 0, 0x78);
    let records = [
        MldAddressRecordRepr::new(MldRecordType::ChangeToExclude, GROUP),
        MldAddressRecordRepr::new(MldRecordType::ChangeToInclude, left),
    ];
    let repr = Icmpv6Repr::Mld(MldRepr::ReportRecordReprs(&records));
    let mut written = [0xa5; 48];
    repr.emit(&SRC6, &DST6, &mut Icmpv6Packet::new_unchecked(&mut written[..]), &caps());
    assert_eq!((written, repr.buffer_len()), (report, 48));
    let record = MldAddressRecord::new_checked(&report[8..28]).unwrap();
    assert_eq!(MldAddressRecordRepr::parse(&record), Ok(records[0]));
    // A record with a source that isn't there.
    let mut cut = report;
    cut[11] = 1;
    let record = MldAddressRecord::new_checked(&cut[8..28]).unwrap();
    assert_eq!(MldAddressRecordRepr::parse(&record), Err(Error));
    assert_eq!(MldAddressRecord::new_checked(&report[8..27]).err(), Some(Error));
}

/// Octets of any kind are read or refused, and never make `new_checked` and `parse` panic.
#[test]
fn any_octets_are_read_or_refused() {
    let mut word = 0x2545_f491_4f6c_dd1du64;
    let mut next = || {
        word ^= word << 13;
        word ^= word >> 7;
        word ^= word << 17;
        word
    };
    let none = ChecksumCapabilities::ignored();
    for _ in 0..20_000 {
        let mut octets = [0; 72];
        octets.chunks_mut(8).for_each(|chunk| chunk.copy_from_slice(&next().to_le_bytes()));
        octets[0] = [octets[0], 0x45, 0x60, 3, 11, 1, 128, 130, 133, 134, 135, 136, 137, 143][next() as usize % 14];
        // Often an option, or a code, that is none to be refused at once.
        (octets[1], octets[25]) = if next() % 2 == 0 { (0, 1) } else { (octets[1], octets[25]) };
        let octets = &octets[..next() as usize % 73];
        let _ = EthernetFrame::new_checked(octets).map(|it| it.payload().len());
        let _ = ArpPacket::new_checked(octets).map(|it| (ArpRepr::parse(&it), it.target_protocol_addr().len()));
        let _ = Ipv4Packet::new_checked(octets).map(|it| (Ipv4Repr::parse(&it, &none), it.payload().len()));
        let _ = Ipv6Packet::new_checked(octets).map(|it| (Ipv6Repr::parse(&it), it.payload().len()));
        let _ = UdpPacket::new_checked(octets).map(|it| UdpRepr::parse(&it, &SRC.into(), &DST.into(), &caps()));
        let _ = Icmpv4Packet::new_checked(octets).map(|it| Icmpv4Repr::parse(&it, &none).is_ok());
        let _ = Icmpv6Packet::new_checked(octets).map(|it| Icmpv6Repr::parse(&SRC6, &DST6, &it, &none).is_ok());
        let _ = IgmpPacket::new_checked(octets).map(|it| IgmpRepr::parse(&it));
        let _ = NdiscOption::new_checked(octets).map(|it| NdiscOptionRepr::parse(&it).is_ok());
        let _ = MldAddressRecord::new_checked(octets).map(|it| MldAddressRecordRepr::parse(&it).is_ok());
        let _ = PrettyPrinter::<EthernetFrame<&[u8]>>::new("", &octets).to_string();
        let _ = PrettyPrinter::<Ipv4Packet<&[u8]>>::new("", &octets).to_string();
        let _ = PrettyPrinter::<Ipv6Packet<&[u8]>>::new("", &octets).to_string();
    }
}

/// What is written here the library takes, and what it writes is read here.
#[cfg(feature = "alloc")]
#[test]
fn the_library_reads_and_writes_the_same() {
    use fumitorygate::iface::{Config, Interface, SocketSet};
    use fumitorygate::phy::{Medium, MemoryDevice};
    use fumitorygate::time::Instant;
    let (own, peer) = (EthernetAddress([2, 0, 0, 0, 0, 1]), EthernetAddress([2, 0, 0, 0, 0, 2]));
    let mut device = MemoryDevice::new(Medium::Ethernet, 1514);
    let mut iface = Interface::new(Config::new(own.into()), &mut device, Instant::ZERO);
    iface.update_ip_addrs(|list| {
        list.push("192.168.1.2/24".parse().unwrap()).unwrap();
        list.push("fe80::2/64".parse().unwrap()).unwrap();
    });
    let mut sockets = SocketSet::of(&iface);
    let framed = |ethertype, packet: &[u8]| {
        let mut frame = vec![0; 14 + packet.len()];
        let mut view = EthernetFrame::new_unchecked(&mut frame[..]);
        EthernetRepr { src_addr: peer, dst_addr: own, ethertype }.emit(&mut view);
        view.payload_mut().copy_from_slice(packet);
        frame
    };
    let data = &b"an echo"[..];

    // ARP first, by which it learns where to answer.
    let mut packet = vec![0; 28];
    let arp = |operation, source, target| ArpRepr::EthernetIpv4 {
        operation,
        source_hardware_addr: source,
        source_protocol_addr: if source == peer { SRC } else { DST },
        target_hardware_addr: target,
        target_protocol_addr: if source == peer { DST } else { SRC },
    };
    arp(ArpOperation::Request, peer, EthernetAddress::BROADCAST).emit(&mut ArpPacket::new_unchecked(&mut packet[..]));
    let frame = framed(EthernetProtocol::Arp, &packet);
    let reply = iface.receive_frame(Instant::ZERO, &frame, &mut sockets).unwrap();
    let reply = EthernetFrame::new_checked(reply).unwrap();
    assert_eq!((reply.src_addr(), reply.dst_addr()), (own, peer));
    let reply = ArpPacket::new_checked(reply.payload()).unwrap();
    assert_eq!(ArpRepr::parse(&reply), Ok(arp(ArpOperation::Reply, own, peer)));

    let request = Icmpv4Repr::EchoRequest { ident: 7, seq_no: 8, data };
    let header =
        Ipv4Repr { src_addr: SRC, dst_addr: DST, next_header: IpProtocol::Icmp, payload_len: 15, hop_limit: 9 };
    let mut packet = vec![0; 35];
    header.emit(&mut Ipv4Packet::new_unchecked(&mut packet[..]), &caps());
    request.emit(&mut Icmpv4Packet::new_unchecked(&mut packet[20..]), &caps());
    let frame = framed(EthernetProtocol::Ipv4, &packet);
    let reply = iface.receive_frame(Instant::ZERO, &frame, &mut sockets).unwrap();
    let reply = Ipv4Packet::new_checked(&reply[14..]).unwrap();
    let answered = Ipv4Repr { src_addr: DST, dst_addr: SRC, hop_limit: 64, ..header };
    assert_eq!(Ipv4Repr::parse(&reply, &caps()), Ok(answered));
    let reply = Icmpv4Packet::new_checked(reply.payload()).unwrap();
    assert_eq!(Icmpv4Repr::parse(&reply, &caps()), Ok(Icmpv4Repr::EchoReply { ident: 7, seq_no: 8, data }));

    // Port 53 is closed: it answers by an error that tells the datagram.
    let mut packet = vec![0; 32];
    let header = Ipv4Repr { next_header: IpProtocol::Udp, payload_len: 12, ..header };
    header.emit(&mut Ipv4Packet::new_unchecked(&mut packet[..]), &caps());
    packet[20..].copy_from_slice(&DATAGRAM);
    let frame = framed(EthernetProtocol::Ipv4, &packet);
    let reply = iface.receive_frame(Instant::ZERO, &frame, &mut sockets).unwrap();
    let reply = Icmpv4Packet::new_checked(&reply[34..]).unwrap();
    let reason = Icmpv4DstUnreachable::PortUnreachable;
    let told = Icmpv4Repr::DstUnreachable { reason, header, data: &DATAGRAM };
    assert_eq!(Icmpv4Repr::parse(&reply, &caps()), Ok(told));

    // Over IPv6 a neighbour asks, and is told.
    let asks = Icmpv6Repr::Ndisc(NdiscRepr::NeighborSolicit { target_addr: DST6, lladdr: Some(peer.into()) });
    let header =
        Ipv6Repr { src_addr: SRC6, dst_addr: DST6, next_header: IpProtocol::Icmpv6, payload_len: 32, hop_limit: 255 };
    let mut packet = vec![0; 72];
    header.emit(&mut Ipv6Packet::new_unchecked(&mut packet[..]));
    asks.emit(&SRC6, &DST6, &mut Icmpv6Packet::new_unchecked(&mut packet[40..]), &caps());
    let frame = framed(EthernetProtocol::Ipv6, &packet);
    let reply = iface.receive_frame(Instant::ZERO, &frame, &mut sockets).unwrap();
    let reply = Icmpv6Packet::new_checked(&reply[54..]).unwrap();
    let flags = NdiscNeighborFlags::SOLICITED;
    let tells = NdiscRepr::NeighborAdvert { flags, target_addr: DST6, lladdr: Some(own.into()) };
    assert_eq!(Icmpv6Repr::parse(&DST6, &SRC6, &reply, &caps()), Ok(Icmpv6Repr::Ndisc(tells)));

    // What it joins it reports, behind hop-by-hop options of eight octets: its solicited-node group, and another one.
    iface.join_multicast_group(GROUP).unwrap();
    let routers = Ipv6Address::new(0xff02, 0, 0, 0, 0, 0, 0, 0x16);
    let mut reported = Vec::new();
    while let Some(frame) = iface.next_frame(Instant::ZERO, &mut sockets) {
        let message = Icmpv6Packet::new_checked(&frame[62..]).unwrap();
        let Ok(Icmpv6Repr::Mld(MldRepr::Report { nr_mcast_addr_rcrds: 1, data })) =
            Icmpv6Repr::parse(&DST6, &routers, &message, &caps())
        else {
            panic!("no report of one group");
        };
        let record = MldAddressRecordRepr::parse(&MldAddressRecord::new_checked(data).unwrap()).unwrap();
        assert_eq!(record.record_type, MldRecordType::ChangeToExclude);
        reported.push(record.mcast_addr);
    }
    assert_eq!(reported, [Ipv6Address::new(0xff02, 0, 0, 0, 0, 1, 0xff00, 2), GROUP]);
}

/// A line for each header.
#[test]
fn frames_are_written_as_text() {
    let mut frame = vec![0; 14 + 20 + 12];
    let mut view = EthernetFrame::new_unchecked(&mut frame[..]);
    let (src_addr, dst_addr) = (EthernetAddress([2, 0, 0, 0, 0, 1]), EthernetAddress([2, 0, 0, 0, 0, 2]));
    EthernetRepr { src_addr, dst_addr, ethertype: EthernetProtocol::Ipv4 }.emit(&mut view);
    let header =
        Ipv4Repr { src_addr: SRC, dst_addr: DST, next_header: IpProtocol::Udp, payload_len: 12, hop_limit: 64 };
    header.emit(&mut Ipv4Packet::new_unchecked(&mut frame[14..]), &caps());
    frame[34..].copy_from_slice(&DATAGRAM);
    let text = PrettyPrinter::<EthernetFrame<&'static [u8]>>::new("-> ", &frame).to_string();
    let lines: Vec<&str> = text.lines().collect();
    assert_eq!(
        lines,
        [
            "-> EthernetII src=02-00-00-00-00-01 dst=02-00-00-00-00-02 type=IPv4",
            "    \\ IPv4 src=192.168.1.1 dst=192.168.1.2 proto=UDP",
            "     \\ UDP src=48896 dst=53 len=4",
            "      \\ DNS (truncated)",
        ]
    );
}
