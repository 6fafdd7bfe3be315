//! What a tracer prints. The octets are made by the RFCs that are named, and the lines say what is in them.
mod common;

use fumitorygate::ChecksumCapabilities;
use fumitorygate::wire::{
    EthernetFrame, IpProtocol, Ipv4Address, Ipv4Packet, Ipv6Address, Ipv6Packet, PrettyPrinter, TcpControl, TcpPacket,
    TcpRepr, TcpSeqNumber, TcpTimestampRepr,
};

const SRC: Ipv4Address = Ipv4Address::new(192, 168, 1, 1);
const DST: Ipv4Address = Ipv4Address::new(192, 168, 1, 2);
const SRC6: Ipv6Address = Ipv6Address::new(0xfe80, 0, 0, 0, 0, 0, 0, 1);
const DST6: Ipv6Address = Ipv6Address::new(0xfe80, 0, 0, 0, 0, 0, 0, 2);

/// The lines of a packet of IPv4.
fn lines(packet: &[u8]) -> Vec<String> {
    let text = PrettyPrinter::<Ipv4Packet<&[u8]>>::new("", &packet).to_string();
    text.lines().map(str::to_string).collect()
}

fn lines6(packet: &[u8]) -> Vec<String> {
    let text = PrettyPrinter::<Ipv6Packet<&[u8]>>::new("", &packet).to_string();
    text.lines().map(str::to_string).collect()
}

/// A segment with all that a handshake's first one says (RFC 9293, 3.1; RFC 7323; RFC 2018).
#[test]
fn a_segment_shows_flags_numbers_window_and_options() {
    let repr = TcpRepr {
        src_port: 49152,
        dst_port: 80,
        control: TcpControl::Syn,
        seq_number: TcpSeqNumber(1000),
        ack_number: Some(TcpSeqNumber(-1)),
        window_len: 2048,
        window_scale: Some(7),
        max_seg_size: Some(1460),
        sack_permitted: true,
        sack_ranges: [None; 3],
        timestamp: Some(TcpTimestampRepr { tsval: 0xfeed, tsecr: 0 }),
        payload: b"abc",
    };
    let mut segment = vec![0; repr.buffer_len()];
    let caps = ChecksumCapabilities::default();
    repr.emit(&mut TcpPacket::new_unchecked(&mut segment[..]), &SRC.into(), &DST.into(), &caps);
    let mut packet = common::ipv4(SRC, DST, 6, 0, 0, &segment);
    let shown = " \\ TCP src=49152 dst=80 syn seq=1000 ack=4294967295 win=2048 len=3 mss=1460 ws=7 sACK \
                 tsval 0000feed tsecr 00000000";
    assert_eq!(lines(&packet), ["IPv4 src=192.168.1.1 dst=192.168.1.2 proto=TCP".to_string(), shown.to_string()]);
    *packet.last_mut().unwrap() ^= 1;
    assert_eq!(lines(&packet)[1], format!("{shown} (checksum incorrect)"));
    let mut wrong = packet.clone();
    wrong[10] ^= 1;
    assert_eq!(lines(&wrong)[0], "IPv4 src=192.168.1.1 dst=192.168.1.2 proto=TCP (checksum incorrect)");
    assert_eq!(lines(&common::ipv4(SRC, DST, 6, 0, 0, &segment[..19]))[1], " \\ (wire::Error)");
}

/// RFC 791, 3.1, and RFC 8200, 4.5.
#[test]
fn fragments_show_where_they_belong() {
    let of = |flags, payload: &[u8]| lines(&common::ipv4(SRC, DST, 17, 7, flags, payload)).join("\n");
    let begins = "IPv4 src=192.168.1.1 dst=192.168.1.2 proto=UDP";
    assert_eq!(of(0x2000, &[0; 16]), format!("{begins} fragment id=7 offset=0 more_frags=true len=16"));
    assert_eq!(of(0x0002, &[0; 5]), format!("{begins} fragment id=7 offset=16 more_frags=false len=5"));

    let begins = "IPv6 src=fe80::1 dst=fe80::2 nxt_hdr=IPv6-Frag hop_limit=64";
    let fragment = [17, 0, 0, 0x11, 0, 0, 0, 9, 1, 2, 3, 4, 5, 6, 7, 8];
    let shown = lines6(&common::ipv6(SRC6, DST6, 44, 64, &fragment));
    assert_eq!(shown, [begins, " \\ IPv6-Frag nxt_hdr=UDP id=9 offset=16 more_frags=true len=8"]);
    // One that is whole (RFC 6946) shows what is in it.
    let whole = [59, 0, 0, 0, 0, 0, 0, 9];
    let shown = lines6(&common::ipv6(SRC6, DST6, 44, 64, &whole));
    let last = "  \\ IPv6-NoNxt len=0";
    assert_eq!(shown, [begins, " \\ IPv6-Frag nxt_hdr=IPv6-NoNxt id=9 offset=0 more_frags=false len=0", last]);
}

/// RFC 8200, 4: a header's length is in units of eight octets, without the first.
#[test]
fn extension_headers_have_lines() {
    let options = [60, 0, 5, 2, 0, 0, 1, 0, 59, 1, 1, 12, 0, 0, 0, 0, 0, 0, 0, 0, 0, 0, 0, 0, 0xff];
    let shown = lines6(&common::ipv6(SRC6, DST6, 0, 1, &options));
    assert_eq!(
        shown,
        [
            "IPv6 src=fe80::1 dst=fe80::2 nxt_hdr=Hop-by-Hop hop_limit=1",
            " \\ Hop-by-Hop nxt_hdr=IPv6-Opts len=8",
            "  \\ IPv6-Opts nxt_hdr=IPv6-NoNxt len=16",
            "   \\ IPv6-NoNxt len=1",
        ]
    );
    for length in 0..24 {
        let shown = lines6(&common::ipv6(SRC6, DST6, 0, 1, &options[..length]));
        assert!(shown.last().unwrap().ends_with(" (truncated)"), "{length}");
    }
}

/// A message by RFC 2131, 2, with options by RFC 2132.
fn lease_message(op: u8, flags: u8, yiaddr: [u8; 4], options: &[u8]) -> Vec<u8> {
    let mut message = vec![0; 236];
    message[..3].copy_from_slice(&[op, 1, 6]);
    message[4..8].copy_from_slice(&[0x39, 0x03, 0xf3, 0x26]);
    message[10] = flags;
    message[16..20].copy_from_slice(&yiaddr);
    message[28..34].copy_from_slice(&[0x00, 0x0b, 0x82, 0x01, 0xfc, 0x42]);
    message.extend([99, 130, 83, 99]);
    message.extend(options);
    message
}

#[test]
fn messages_of_dhcp_have_a_line() {
    let udp = |ports, message: &[u8]| lines(&common::udp4(SRC, DST, ports, message)).pop().unwrap();
    let options = [53, 1, 1, 61, 7, 1, 0, 0x0b, 0x82, 1, 0xfc, 0x42, 50, 4, 10, 0, 0, 9, 55, 3, 1, 3, 6, 0, 255, 1];
    assert_eq!(
        udp((68, 67), &lease_message(1, 0x80, [0; 4], &options)),
        "  \\ DHCP request xid=3903f326 chaddr=00-0b-82-01-fc-42 broadcast type=discover client=00-0b-82-01-fc-42 \
         requested=10.0.0.9 parameters=[1, 3, 6]"
    );
    let options = [
        &[53, 1, 5, 54, 4, 10, 0, 0, 1, 51, 4, 0, 0, 0x0e, 0x10, 1, 4, 255, 255, 255, 0, 3, 4, 10, 0, 0, 1][..],
        &[6, 8, 10, 0, 0, 2, 10, 0, 0, 3, 58, 4, 0, 0, 7, 8, 59, 4, 0, 0, 0x0c, 0x4e, 12, 2, b'm', b'e', 43, 1, 0, 255],
    ];
    assert_eq!(
        udp((67, 68), &lease_message(2, 0, [10, 0, 0, 9], &options.concat())),
        "  \\ DHCP reply xid=3903f326 chaddr=00-0b-82-01-fc-42 yiaddr=10.0.0.9 type=ack server=10.0.0.1 lease=3600s \
         mask=255.255.255.0 router=10.0.0.1 dns=10.0.0.2 dns=10.0.0.3 t1=1800s t2=3150s hostname=\"me\" opt(43)"
    );
    assert_eq!(udp((67, 68), &[2; 239]), "  \\ DHCP (truncated)");
    let cut = lease_message(2, 0, [0; 4], &[53, 1]);
    assert!(udp((67, 68), &cut).ends_with("chaddr=00-0b-82-01-fc-42 (truncated)"));
}

/// RFC 1035, 4.1 and 4.1.4, with the names of its example; RFC 3596, 2.
#[test]
fn messages_of_dns_have_a_line() {
    let udp = |ports, message: &[u8]| lines(&common::udp4(SRC, DST, ports, message)).pop().unwrap();
    let name = b"\x03FOO\x01F\x03ISI\x04ARPA\x00";
    let query = [&[0x12, 0x34, 0x01, 0x00, 0, 1, 0, 0, 0, 0, 0, 0][..], name, &[0, 1, 0, 1]].concat();
    assert_eq!(udp((49152, 53), &query), "  \\ DNS query id=1234 rd A? FOO.F.ISI.ARPA authority=0 additional=0");
    let response = [
        &[0x12, 0x34, 0x85, 0x80, 0, 1, 0, 3, 0, 0, 0, 1][..],
        name,
        &[0, 1, 0, 1],
        // Its name, at 12, is another's, at 16, which has an address of each family; the additional record isn't shown.
        &[0xc0, 12, 0, 5, 0, 1, 0, 0, 0, 60, 0, 2, 0xc0, 16],
        &[0xc0, 16, 0, 1, 0, 1, 0, 0, 0, 9, 0, 4, 10, 0, 0, 1],
        &[0xc0, 16, 0, 28, 0, 1, 0, 0, 0, 9, 0, 16, 0x20, 1, 0x0d, 0xb8, 0, 0, 0, 0, 0, 0, 0, 0, 0, 0, 0, 1],
        &[0; 11],
    ];
    assert_eq!(
        udp((53, 49152), &response.concat()),
        "  \\ DNS response id=1234 rcode=no_error aa rd ra A? FOO.F.ISI.ARPA FOO.F.ISI.ARPA CNAME ttl=60 F.ISI.ARPA \
         F.ISI.ARPA A ttl=9 10.0.0.1 F.ISI.ARPA AAAA ttl=9 2001:db8::1 authority=0 additional=1"
    );
    let refuses = [0x12, 0x34, 0x80, 0x03, 0, 0, 0, 0, 0, 0, 0, 0];
    assert!(udp((53, 49152), &refuses).contains("rcode=name_error"));
    assert_eq!(udp((53, 49152), &query[..11]), "  \\ DNS (truncated)");
    assert!(udp((49152, 53), &query[..query.len() - 1]).ends_with(" (truncated)"));
    // A name that refers to itself ends.
    let endless = [&[0x12, 0x34, 0, 0, 0, 1, 0, 0, 0, 0, 0, 0][..], &[0xc0, 12, 0, 1, 0, 1]].concat();
    assert!(udp((49152, 53), &endless).contains("A?  (malformed name)"));
}

/// Whatever octets there are, they are written as text, each line of which has a bound.
#[test]
fn any_octets_are_printed() {
    let mut word = 0x2545_f491_u32;
    let mut next = || {
        word ^= word << 13;
        word ^= word >> 17;
        word ^= word << 5;
        word
    };
    for round in 0..20_000 {
        let mut octets: Vec<u8> = (0..next() % 400).map(|_| if next() % 3 == 0 { next() as u8 } else { 0 }).collect();
        let protocol = [6, 17, 0, 44, 60, 1, 58, 2][round % 8];
        if protocol == 17 && octets.len() > 8 {
            let (port, length) = ([53u16, 67, 68][round / 8 % 3], octets.len() as u16);
            octets[2..4].copy_from_slice(&port.to_be_bytes());
            octets[4..6].copy_from_slice(&length.to_be_bytes());
        }
        let shown = [
            lines(&common::ipv4(SRC, DST, protocol, 0, 0, &octets)),
            lines6(&common::ipv6(SRC6, DST6, protocol, 64, &octets)),
            vec![PrettyPrinter::<EthernetFrame<&[u8]>>::new("<- ", &octets).to_string()],
        ];
        assert!(shown.concat().iter().all(|line| line.len() < 1 << 16), "{round}");
    }
    assert_eq!(IpProtocol::Unknown(0xfd).to_string(), "0xfd");
}
