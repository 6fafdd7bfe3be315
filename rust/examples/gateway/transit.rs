//! What a gateway reads off a packet, and does to one: no state, and nothing is sent.
use fumitorygate::wire::{IpAddress, IpCidr, Ipv4Packet, Ipv6Packet};

/// Type and code of an error, over IPv4 (RFC 792, RFC 1812 5.2.7) and over IPv6 (RFC 4443 3).
pub type Kind = [[u8; 2]; 2];
pub const NO_ROUTE: Kind = [[3, 0], [1, 0]];
pub const NO_NEIGHBOR: Kind = [[3, 1], [1, 3]];
pub const TOO_LONG: Kind = [[3, 4], [2, 0]];
pub const EXPIRED: Kind = [[11, 0], [3, 0]];
pub const BEYOND_SCOPE: Kind = [[3, 0], [1, 2]];

pub fn is_ipv4(packet: &[u8]) -> bool {
    packet[0] >> 4 == 4
}

fn get_16(octets: &[u8], at: usize) -> u16 {
    u16::from_be_bytes([octets[at], octets[at + 1]])
}

fn put_16(octets: &mut [u8], at: usize, number: usize) {
    octets[at..at + 2].copy_from_slice(&(number as u16).to_be_bytes());
}

/// The checksum of octets, after a sum of others (RFC 1071).
fn checksum(before: u32, octets: &[u8]) -> usize {
    let word = |pair: &[u8]| u32::from(pair[0]) << 8 | pair.get(1).map_or(0, |&low| u32::from(low));
    let mut sum = octets.chunks(2).fold(before, |sum, pair| sum + word(pair));
    while sum >> 16 != 0 {
        sum = (sum & 0xffff) + (sum >> 16);
    }
    (!sum & 0xffff) as usize
}

/// How long a header of IPv4 is, with its options.
fn header_len(packet: &[u8]) -> usize {
    usize::from(packet[0] & 15) * 4
}

/// How long the packet is with which these octets begin, if its header is right (RFC 1812 5.2.2, RFC 8200 3).
pub fn packet_len(octets: &[u8]) -> Option<usize> {
    match octets.first()? >> 4 {
        4 => {
            let packet = Ipv4Packet::new_checked(octets).ok()?;
            packet.verify_checksum().then_some(packet.total_len().into())
        }
        6 => Some(Ipv6Packet::new_checked(octets).ok()?.total_len()),
        _ => None,
    }
}

/// Where a packet is from, and where it goes.
pub fn ends(packet: &[u8]) -> (IpAddress, IpAddress) {
    if is_ipv4(packet) {
        let packet = Ipv4Packet::new_unchecked(packet);
        return (packet.src_addr().into(), packet.dst_addr().into());
    }
    let packet = Ipv6Packet::new_unchecked(packet);
    (packet.src_addr().into(), packet.dst_addr().into())
}

pub fn is_link_local(address: IpAddress) -> bool {
    match address {
        IpAddress::Ipv4(a) => a.is_link_local(),
        IpAddress::Ipv6(a) => a.is_unicast_link_local(),
    }
}

/// Whether an address may be an end of a packet that is forwarded: of one host, and not of one link alone (RFC 1812
/// 4.2.2.11 and 5.3.7; RFC 3927 7; RFC 4291 2.5).
pub fn is_forwardable(address: IpAddress) -> bool {
    match address {
        _ if is_link_local(address) => false,
        IpAddress::Ipv4(a) => a.octets()[0] != 0 && !a.is_loopback() && a.octets()[0] < 224,
        IpAddress::Ipv6(a) => !a.is_multicast() && !a.is_unspecified() && !a.is_loopback(),
    }
}

/// Whether an address of a network of IPv4 is the network's own, or its broadcast address (RFC 1812 4.2.3.1, 5.3.5; RFC
/// 3021).
pub fn is_end_of_network(address: IpAddress, network: IpCidr) -> bool {
    let (IpAddress::Ipv4(a), IpCidr::Ipv4(network)) = (address, network) else { return false };
    network.prefix_len() <= 30 && (Some(a) == network.broadcast() || a == network.network().address())
}

/// The options of a packet of IPv4 up to the first that isn't right (RFC 791 3.1).
fn options(packet: &[u8]) -> Vec<&[u8]> {
    let (mut rest, mut found) = (&packet[20..header_len(packet)], Vec::new());
    while let [kind, more @ ..] = rest {
        let len = match (kind, more.first()) {
            (1, _) => 1,
            (2.., Some(&len)) if len >= 2 && usize::from(len) <= rest.len() => len.into(),
            _ => break,
        };
        found.push(&rest[..len]);
        rest = &rest[len..];
    }
    found
}

/// Whether a packet names hosts to go by: loosely 131, strictly 137 (RFC 791 3.1).
pub fn has_source_route(packet: &[u8]) -> bool {
    is_ipv4(packet) && options(packet).iter().any(|option| matches!(option[0], 131 | 137))
}

pub fn hop_limit(packet: &[u8]) -> u8 {
    packet[if is_ipv4(packet) { 8 } else { 7 }]
}

/// Lowers the hop limit by one, and over IPv4 mends the checksum by the word that changed (RFC 1624 3).
pub fn lower_hop_limit(packet: &mut [u8]) {
    if !is_ipv4(packet) {
        packet[7] -= 1;
        return;
    }
    let old = get_16(packet, 8);
    packet[8] -= 1;
    let before = u32::from(!get_16(packet, 10)) + u32::from(!old);
    put_16(packet, 10, checksum(before, &[packet[8], packet[9]]));
}

/// Whether a packet may be cut: over IPv4, unless DF is set.
pub fn may_be_cut(packet: &[u8]) -> bool {
    is_ipv4(packet) && packet[6] & 0x40 == 0
}

/// The protocol of a packet of IPv6 and its payload, after the headers of extensions (RFC 8200 4; RFC 4302 2.2): none where they
/// run out, and in a fragment but the first.
fn after_extensions(packet: &[u8]) -> Option<(u8, &[u8])> {
    let (mut protocol, mut rest) = (packet[6], &packet[40..]);
    while let 0 | 43 | 44 | 51 | 60 = protocol {
        let len = match protocol {
            44 if get_16(rest.get(..8)?, 2) >> 3 != 0 => return None,
            44 => 8,
            51 => (usize::from(*rest.get(1)?) + 2) * 4,
            _ => (usize::from(*rest.get(1)?) + 1) * 8,
        };
        protocol = rest[0];
        rest = rest.get(len..)?;
    }
    Some((protocol, rest))
}

/// Whether an error may be sent about a packet between hosts: not about a fragment but the first, nor about an error or a
/// redirect (RFC 1812 4.3.2.7, RFC 4443 2.4). None is sent where that can't be told.
pub fn may_be_told(packet: &[u8]) -> bool {
    if !is_ipv4(packet) {
        return match after_extensions(packet) {
            Some((58, message)) => message.first().is_some_and(|&kind| kind >= 128 && kind != 137),
            other => other.is_some_and(|(_, payload)| !payload.is_empty()),
        };
    }
    let kind = packet.get(header_len(packet));
    get_16(packet, 6) & 0x1fff == 0 && (packet[9] != 1 || kind.is_some_and(|kind| !matches!(kind, 3 | 4 | 5 | 11 | 12)))
}

/// An error about a packet, from an address to the packet's source. It quotes as much as it may, with which it has 576
/// octets over IPv4 (RFC 1812 4.3.2.3) and 1280 over IPv6 (RFC 4443 2.4). The last word of its header is a number, as the MTU.
pub fn error(from: IpAddress, packet: &[u8], kind: Kind, number: usize) -> Vec<u8> {
    let is_v4 = is_ipv4(packet);
    let (header, room) = if is_v4 { (20, 576 - 28) } else { (40, 1280 - 48) };
    let mut out = vec![0; header + 8];
    out.extend(&packet[..packet.len().min(room)]);
    let len = out.len();
    out[header..header + 2].copy_from_slice(&kind[usize::from(!is_v4)]);
    put_16(&mut out, header + 6, number);
    match from {
        IpAddress::Ipv4(a) => {
            [out[0], out[8], out[9]] = [0x45, 64, 1];
            put_16(&mut out, 2, len);
            out[12..16].copy_from_slice(&a.octets());
            out[16..20].copy_from_slice(&packet[12..16]);
            let sum = checksum(0, &out[..20]);
            put_16(&mut out, 10, sum);
        }
        IpAddress::Ipv6(a) => {
            [out[0], out[6], out[7]] = [0x60, 58, 64];
            put_16(&mut out, 4, len - 40);
            out[8..24].copy_from_slice(&a.octets());
            out[24..40].copy_from_slice(&packet[8..24]);
        }
    }
    // Of the pseudo-header the addresses are in the text from octet 8 on (RFC 8200 8.1).
    let sum = if is_v4 { checksum(0, &out[20..]) } else { checksum(58 + (len as u32 - 40), &out[8..]) };
    put_16(&mut out, header + 2, sum);
    out
}

/// The fragments of a packet of IPv4 for packets of so many octets (RFC 791 3.2). But for the first they have just the options
/// with the copied flag.
pub fn fragments(packet: &[u8], mtu: usize) -> Vec<Vec<u8>> {
    let (header, payload) = packet.split_at(header_len(packet));
    let mut short = header[..20].to_vec();
    options(packet).iter().filter(|option| option[0] & 0x80 != 0).for_each(|option| short.extend(*option));
    short.resize(short.len().div_ceil(4) * 4, 0);
    let (mut at, mut pieces) = (0, Vec::new());
    while at < payload.len() {
        let mut piece = if at == 0 { header.to_vec() } else { short.clone() };
        let (rest, room) = (payload.len() - at, mtu - piece.len());
        let taken = if rest <= room { rest } else { room / 8 * 8 };
        piece[0] = 0x40 | (piece.len() / 4) as u8;
        let field = usize::from(get_16(header, 6)) + at / 8;
        put_16(&mut piece, 6, field | if taken < rest { 0x2000 } else { 0 });
        let len = piece.len();
        put_16(&mut piece, 2, len + taken);
        put_16(&mut piece, 10, 0);
        let sum = checksum(0, &piece);
        put_16(&mut piece, 10, sum);
        piece.extend(&payload[at..at + taken]);
        pieces.push(piece);
        at += taken;
    }
    pieces
}
