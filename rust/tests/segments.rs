//! Forms of TCP: octets are those of smoltcp's tests of `wire::tcp`, from memory, and of the RFCs that are named.
use fumitorygate::ChecksumCapabilities;
use fumitorygate::wire::{
    Error, IpAddress, TCP_HEADER_LEN, TcpControl, TcpOption, TcpPacket, TcpRepr, TcpSeqNumber, TcpTimestampRepr,
};

const SRC: IpAddress = IpAddress::v4(192, 168, 1, 1);
const DST: IpAddress = IpAddress::v4(192, 168, 1, 2);

const SEGMENT: [u8; 28] = [
    0xbf, 0x00, 0x00, 0x50, 0x01, 0x23, 0x45, 0x67, 0x89, 0xab, 0xcd, 0xef, 0x60, 0x35, 0x01, 0x23, 0x01, 0xb6, 0x02,
    0x01, 0x03, 0x03, 0x0c, 0x01, 0xaa, 0x00, 0x00, 0xff,
];

const SYN: [u8; 24] = [
    0xbf, 0x00, 0x00, 0x50, 0x01, 0x23, 0x45, 0x67, 0x00, 0x00, 0x00, 0x00, 0x50, 0x02, 0x01, 0x23, 0x7a, 0x8d, 0x00,
    0x00, 0xaa, 0x00, 0x00, 0xff,
];

const PAYLOAD: [u8; 4] = [0xaa, 0x00, 0x00, 0xff];

fn syn() -> TcpRepr<'static> {
    TcpRepr {
        src_port: 48896,
        dst_port: 80,
        control: TcpControl::Syn,
        seq_number: TcpSeqNumber(0x0123_4567),
        ack_number: None,
        window_len: 0x0123,
        window_scale: None,
        max_seg_size: None,
        sack_permitted: false,
        sack_ranges: [None; 3],
        timestamp: None,
        payload: &PAYLOAD,
    }
}

#[test]
fn a_segment_is_taken_apart() {
    let segment = TcpPacket::new_checked(&SEGMENT[..]).unwrap();
    assert_eq!((segment.src_port(), segment.dst_port()), (48896, 80));
    assert_eq!((segment.seq_number().0 as u32, segment.ack_number().0 as u32), (0x0123_4567, 0x89ab_cdef));
    assert_eq!((segment.header_len(), segment.window_len(), segment.urgent_at()), (24, 0x0123, 0x0201));
    let flags = [segment.fin(), segment.syn(), segment.rst(), segment.psh(), segment.ack(), segment.urg()];
    assert_eq!(flags, [true, false, true, false, true, true]);
    assert!(!segment.ece() && !segment.cwr() && !segment.ns());
    assert_eq!((segment.options(), segment.payload()), (&[0x03, 0x03, 0x0c, 0x01][..], &PAYLOAD[..]));
    assert_eq!((segment.checksum(), segment.segment_len()), (0x01b6, 5));
    assert!(segment.verify_checksum(&SRC, &DST) && !segment.verify_checksum(&SRC, &SRC));
}

#[test]
fn a_segment_is_put_together() {
    let mut octets = [0xa5; 28];
    let mut segment = TcpPacket::new_unchecked(&mut octets[..]);
    segment.set_src_port(48896);
    segment.set_dst_port(80);
    segment.set_seq_number(TcpSeqNumber(0x0123_4567));
    segment.set_ack_number(TcpSeqNumber(0x89ab_cdef_u32 as i32));
    segment.set_header_len(24);
    segment.clear_flags();
    segment.set_fin(true);
    segment.set_syn(false);
    segment.set_rst(true);
    segment.set_ack(true);
    segment.set_urg(true);
    segment.set_window_len(0x0123);
    segment.set_urgent_at(0x0201);
    segment.options_mut().copy_from_slice(&[0x03, 0x03, 0x0c, 0x01]);
    segment.payload_mut().copy_from_slice(&PAYLOAD);
    segment.fill_checksum(&SRC, &DST);
    assert_eq!(octets, SEGMENT);
}

#[test]
fn values_are_read_and_written() {
    let caps = ChecksumCapabilities::default();
    let segment = TcpPacket::new_checked(&SYN[..]).unwrap();
    assert_eq!(TcpRepr::parse(&segment, &SRC, &DST, &caps), Ok(syn()));
    let mut octets = vec![0xa5; syn().buffer_len()];
    syn().emit(&mut TcpPacket::new_unchecked(&mut octets[..]), &SRC, &DST, &caps);
    assert_eq!(octets, SYN);
    assert_eq!((syn().segment_len(), syn().is_empty(), TCP_HEADER_LEN), (5, false, 20));
}

/// What has options comes back as it was, and its header has a multiple of four octets (RFC 9293, 3.1).
#[test]
fn options_come_back() {
    let caps = ChecksumCapabilities::default();
    let ranges = [Some((500, 1500)), Some((0x7fff_ffff, 0)), None];
    let timestamp = Some(TcpTimestampRepr { tsval: 5_000_000, tsecr: 7_000_000 });
    let ack_number = Some(TcpSeqNumber(-1));
    let made = [
        TcpRepr { window_scale: Some(7), max_seg_size: Some(1460), sack_permitted: true, ..syn() },
        TcpRepr { control: TcpControl::Psh, ack_number, sack_ranges: ranges, ..syn() },
        TcpRepr { control: TcpControl::Fin, ack_number, timestamp, ..syn() },
        TcpRepr { control: TcpControl::Rst, payload: &[], ..syn() },
        TcpRepr { control: TcpControl::None, ack_number, payload: &[], ..syn() },
    ];
    for repr in made {
        let mut octets = vec![0xa5; repr.buffer_len()];
        repr.emit(&mut TcpPacket::new_unchecked(&mut octets[..]), &SRC, &DST, &caps);
        let segment = TcpPacket::new_checked(&octets[..]).unwrap();
        assert_eq!(repr.header_len() % 4, 0);
        assert_eq!(TcpRepr::parse(&segment, &SRC, &DST, &caps), Ok(repr));
        assert_eq!(segment.selective_ack_permitted(), Ok(repr.sack_permitted));
        assert_eq!(segment.selective_ack_ranges(), Ok(repr.sack_ranges));
    }
}

#[test]
fn each_option_has_its_octets() {
    let has = |option: TcpOption<'_>, octets: &[u8]| {
        assert_eq!(TcpOption::parse(octets), Ok((&[][..], option)));
        let mut written = vec![0; option.buffer_len()];
        assert!(option.emit(&mut written).is_empty());
        assert_eq!(written, octets);
    };
    has(TcpOption::EndOfList, &[0x00]);
    has(TcpOption::NoOperation, &[0x01]);
    has(TcpOption::MaxSegmentSize(1500), &[0x02, 0x04, 0x05, 0xdc]);
    has(TcpOption::WindowScale(12), &[0x03, 0x03, 0x0c]);
    has(TcpOption::SackPermitted, &[0x04, 0x02]);
    let range = [0x05, 0x0a, 0x00, 0x00, 0x01, 0xf4, 0x00, 0x00, 0x05, 0xdc];
    has(TcpOption::SackRange([Some((500, 1500)), None, None]), &range);
    let timestamp = [0x08, 0x0a, 0x00, 0x4c, 0x4b, 0x40, 0x00, 0x6a, 0xcf, 0xc0];
    has(TcpOption::TimeStamp { tsval: 5_000_000, tsecr: 7_000_000 }, &timestamp);
    has(TcpOption::Unknown { kind: 12, data: &[1, 2, 3] }, &[0x0c, 0x05, 0x01, 0x02, 0x03]);
}

#[test]
fn malformed_options_are_refused() {
    for octets in [&[][..], &[0x0c], &[0x0c, 0x05, 0x01, 0x02], &[0x0c, 0x01], &[0x02, 0x02], &[0x03, 0x02], &[5, 2]] {
        assert_eq!(TcpOption::parse(octets), Err(Error), "{octets:?}");
    }
}

/// RFC 9293, 3.1 and 3.7.1; RFC 7323, 2.3: a window is doubled at most 14 times.
#[test]
fn malformed_segments_are_refused() {
    let caps = ChecksumCapabilities::ignored();
    let read = |octets: &[u8]| {
        TcpPacket::new_checked(octets).and_then(|it| TcpRepr::parse(&it, &SRC, &DST, &caps).map(|it| it.window_scale))
    };
    assert_eq!(read(&SYN), Ok(None));
    for length in 0..20 {
        assert_eq!(read(&SYN[..length]), Err(Error));
    }
    for (at, octet) in [(12, 0x40), (12, 0x70), (1, 0), (3, 0), (13, 0x03), (13, 0x06), (13, 0x05)] {
        let mut octets = SYN;
        octets[0] = if at == 1 { 0 } else { octets[0] };
        octets[at] = octet;
        assert_eq!(read(&octets), Err(Error), "{at}");
    }
    let mut scaled = SYN;
    scaled[12] = 0x60;
    scaled[20..].copy_from_slice(&[0x03, 0x03, 0xff, 0x00]);
    assert_eq!(read(&scaled), Ok(Some(14)));
    scaled[21] = 0x09;
    assert_eq!(read(&scaled), Err(Error));
}

/// As smoltcp writes a segment.
#[test]
fn a_segment_is_written_as_text() {
    let segment = TcpPacket::new_checked(&SEGMENT[..]).unwrap();
    let text = "TCP src=48896 dst=80 fin rst seq=19088743 ack=2309737967 win=291 urg=513 len=4 ws=12";
    assert_eq!(segment.to_string(), text);
    assert_eq!(syn().to_string(), "TCP src=48896 dst=80 syn seq=19088743 win=291 len=4");
}

/// smoltcp's documentation of `Control`.
#[test]
fn controls_take_numbers() {
    assert_eq!(
        [TcpControl::Syn.len(), TcpControl::Fin.len(), TcpControl::Rst.len(), TcpControl::Psh.len()],
        [1, 1, 0, 0]
    );
    assert_eq!((TcpControl::Psh.quash_psh(), TcpControl::Fin.quash_psh()), (TcpControl::None, TcpControl::Fin));
}
