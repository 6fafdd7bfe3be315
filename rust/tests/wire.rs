//! Addresses and instants. What is expected comes from RFCs and from smoltcp's documentation.
use fumitorygate::time::{Duration, Instant};
use fumitorygate::wire::{
    Error, EthernetAddress, HardwareAddress, IpAddress, IpCidr, IpEndpoint, IpListenEndpoint, IpProtocol, Ipv4Address,
    Ipv4Cidr, Ipv6Address, Ipv6Cidr, ParseError, TcpSeqNumber,
};

/// RFC 2464, 4: its example.
#[test]
fn an_identifier_is_formed_from_a_hardware_address() {
    let hardware_addr = EthernetAddress([0x34, 0x56, 0x78, 0x9a, 0xbc, 0xde]);
    let link = Ipv6Cidr::new("fe80::".parse().unwrap(), 64);
    let formed = Ipv6Cidr::from_link_prefix(&link, hardware_addr.into()).unwrap();
    assert_eq!(formed.address(), "fe80::3656:78ff:fe9a:bcde".parse::<Ipv6Address>().unwrap());
    assert_eq!(formed.prefix_len(), 64);
    assert_eq!(Ipv6Cidr::from_link_prefix(&link, HardwareAddress::Ip), None);
    let other = Ipv6Cidr::new(Ipv6Address::UNSPECIFIED, 63);
    assert_eq!(Ipv6Cidr::from_link_prefix(&other, hardware_addr.into()), None);
}

#[test]
fn texts_are_read_and_written() {
    for text in ["192.168.69.1/24", "0.0.0.0/0", "255.255.255.255/32", "fe80::1/64", "::/0", "::1/128"] {
        assert_eq!(text.parse::<IpCidr>().unwrap().to_string(), text);
    }
    for text in ["192.168.69.1", "192.168.69.1/33", "::/129", "/8", "192.168.69/24", "::1/", "::1/x"] {
        assert_eq!(text.parse::<IpCidr>(), Err(ParseError));
    }
    let end = IpEndpoint::from(("::1".parse::<IpAddress>().unwrap(), 80));
    assert_eq!(end.to_string(), "[::1]:80");
    assert_eq!(IpListenEndpoint::from(80).to_string(), "*:80");
    assert_eq!(IpListenEndpoint::from((Ipv4Address::UNSPECIFIED, 80)), 80.into());
    assert_eq!(EthernetAddress([0, 1, 2, 3, 4, 0xff]).to_string(), "00-01-02-03-04-ff");
}

/// RFC 4632, 3.1: a prefix of n bits is the leftmost n.
#[test]
fn networks_contain_their_addresses() {
    let contains = |cidr: &str, addr: &str| cidr.parse::<IpCidr>().unwrap().contains_addr(&addr.parse().unwrap());
    assert!(contains("192.168.69.1/24", "192.168.69.255") && !contains("192.168.69.1/24", "192.168.70.0"));
    assert!(contains("0.0.0.0/0", "255.255.255.255") && !contains("0.0.0.0/0", "::"));
    assert!(contains("10.0.0.1/32", "10.0.0.1") && !contains("10.0.0.1/32", "10.0.0.0"));
    assert!(contains("2001:db8::/33", "2001:db8:7fff::") && !contains("2001:db8::/33", "2001:db8:8000::"));
    assert!(contains("::/0", "ff02::1") && !contains("::1/128", "::"));
}

/// RFC 4632 3.1; RFC 919 7, and RFC 3021 2.1 for networks of two addresses.
#[test]
fn networks_have_their_parts() {
    let cidr = |text: &str| text.parse::<Ipv4Cidr>().unwrap();
    for (own, network, netmask, broadcast) in [
        ("192.168.69.77/24", "192.168.69.0/24", "255.255.255.0", Some("192.168.69.255")),
        ("10.1.2.3/8", "10.0.0.0/8", "255.0.0.0", Some("10.255.255.255")),
        ("10.1.2.3/30", "10.1.2.0/30", "255.255.255.252", Some("10.1.2.3")),
        ("10.1.2.3/31", "10.1.2.2/31", "255.255.255.254", None),
        ("10.1.2.3/32", "10.1.2.3/32", "255.255.255.255", None),
        ("10.1.2.3/0", "0.0.0.0/0", "0.0.0.0", Some("255.255.255.255")),
    ] {
        let own = cidr(own);
        assert_eq!((own.network(), own.netmask().to_string()), (cidr(network), netmask.to_string()));
        assert_eq!(own.broadcast(), broadcast.map(|text| text.parse().unwrap()));
        let made = Ipv4Cidr::from_netmask(own.address(), own.netmask());
        assert_eq!(made.ok(), (own.prefix_len() > 0).then_some(own));
    }
    for mask in ["255.0.255.0", "0.255.255.255", "255.255.255.253"] {
        assert_eq!(Ipv4Cidr::from_netmask(Ipv4Address::UNSPECIFIED, mask.parse().unwrap()), Err(Error));
    }
    let contains = |one: &str, other: &str| one.parse::<IpCidr>().unwrap().contains_subnet(&other.parse().unwrap());
    assert!(contains("10.0.0.0/8", "10.1.0.0/16") && !contains("10.0.0.0/16", "10.0.0.0/8"));
    assert!(contains("2001:db8::/32", "2001:db8:1::/48") && !contains("::/0", "0.0.0.0/0"));
    assert_eq!("2001:db8::1/33".parse::<IpCidr>().unwrap().network().to_string(), "2001:db8::/33");
}

#[test]
fn addresses_and_ends_are_read() {
    for text in ["02-00-00-00-00-ff", "02:00:00:00:00:ff"] {
        assert_eq!(text.parse(), Ok(EthernetAddress([2, 0, 0, 0, 0, 0xff])));
    }
    for text in
        ["", "02-00-00-00-00", "02-00-00-00-00-ff-00", "2-00-00-00-00-ff", "02-00-00-00:00-ff", "+2-00-00-00-00-ff"]
    {
        assert_eq!(text.parse::<EthernetAddress>(), Err(ParseError));
    }
    for text in ["192.168.69.1:80", "[fe80::1]:80"] {
        assert_eq!(text.parse::<IpEndpoint>().unwrap().to_string(), text);
    }
    assert_eq!("192.168.69.1".parse::<IpEndpoint>(), Err(ParseError));
}

/// RFC 790 and RFC 8200: the numbers of protocols.
#[test]
fn protocols_have_their_numbers() {
    let all = [(0, "HopByHop"), (1, "Icmp"), (2, "Igmp"), (6, "Tcp"), (17, "Udp"), (43, "Ipv6Route"), (44, "Ipv6Frag")];
    for (number, name) in
        all.into_iter().chain([(58, "Icmpv6"), (59, "Ipv6NoNxt"), (60, "Ipv6Opts"), (253, "Unknown(253)")])
    {
        assert_eq!(format!("{:?}", IpProtocol::from(number)), name);
        assert_eq!(u8::from(IpProtocol::from(number)), number);
    }
}

/// `iface.h`: instants lie from 0 to 2^62.
#[test]
fn instants_stay_in_their_range() {
    assert_eq!(Instant::from_micros(-1), Instant::ZERO);
    assert_eq!(Instant::from_micros(i64::MAX).total_micros(), 1 << 62);
    assert_eq!(Instant::LAST + Duration::MAX, Instant::LAST);
    assert_eq!(Instant::ZERO - Duration::from_micros(1), Instant::ZERO);
    assert_eq!(Instant::from_secs(1) - Instant::from_secs(2), Duration::from_secs(1));
    assert_eq!(Instant::from_millis(1500) - Instant::from_secs(1), Duration::from_millis(500));
    assert_eq!(Instant::from_millis(1500).to_string(), "1.500s");
    let instant = Instant::from_micros(5_674_321);
    assert_eq!((instant.secs(), instant.millis(), instant.micros()), (5, 674, 674_321));
    assert_eq!(core::time::Duration::from(Duration::from_millis(7)), core::time::Duration::from_millis(7));
}

/// RFC 9293, 3.4: numbers are counted modulo 2^32, and compared by which is before the other.
#[test]
fn sequence_numbers_are_counted_modulo_2_to_the_32() {
    let last = TcpSeqNumber(-1);
    assert_eq!(last + 1, TcpSeqNumber(0));
    assert_eq!(TcpSeqNumber(0) - 1, last);
    assert_eq!(TcpSeqNumber(4) - last, 5);
    assert!(last < TcpSeqNumber(0) && TcpSeqNumber(i32::MAX) < TcpSeqNumber(i32::MIN));
    let mut number = TcpSeqNumber(i32::MAX);
    number += 2;
    assert_eq!((number, number.to_string()), (TcpSeqNumber(i32::MIN + 1), "2147483649".into()));
}
