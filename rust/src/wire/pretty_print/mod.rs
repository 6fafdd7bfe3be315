//! Frames as text, a line for each header, as smoltcp's: for a reader's eyes alone.
//!
//! Nothing of this goes into a packet, and no packet is taken or refused by it: the library reads and writes by its own
//! forms, which are proved. What can't be read here stands in parentheses.
use super::{
    ArpPacket, ArpRepr, EthernetFrame, EthernetProtocol, Icmpv4Packet, Icmpv4Repr, Icmpv6Packet, Icmpv6Repr,
    IgmpPacket, IgmpRepr, IpAddress, IpProtocol, Ipv4Packet, Ipv4Repr, Ipv6Packet, Ipv6Repr, TcpPacket, UdpPacket,
    UdpRepr,
};
use crate::checksum::ChecksumCapabilities;
use core::fmt;
use core::marker::PhantomData;

mod dhcp;
mod dns;

/// How far a line is to be indented: by one blank more for each header.
#[derive(Clone, Debug)]
pub struct PrettyIndent {
    prefix: &'static str,
    level: usize,
}

impl PrettyIndent {
    /// The first line, with a text before it.
    pub const fn new(prefix: &'static str) -> PrettyIndent {
        PrettyIndent { prefix, level: 0 }
    }

    /// Ends a line; the next one is that of a header within.
    ///
    /// # Errors
    /// Those of the writer.
    pub fn increase(&mut self, f: &mut fmt::Formatter<'_>) -> fmt::Result {
        self.level += 1;
        f.write_str("\n")
    }
}

impl fmt::Display for PrettyIndent {
    fn fmt(&self, f: &mut fmt::Formatter<'_>) -> fmt::Result {
        match self.level {
            0 => f.write_str(self.prefix),
            level => write!(f, "{:1$}\\ ", "", self.prefix.len() + level),
        }
    }
}

/// What can be written as text from its octets.
pub trait PrettyPrint {
    /// Writes it, from a line on that is indented so far.
    ///
    /// # Errors
    /// Those of the writer.
    fn pretty_print(buffer: &dyn AsRef<[u8]>, fmt: &mut fmt::Formatter<'_>, indent: &mut PrettyIndent) -> fmt::Result;
}

/// Octets that are written as text. It is made by [`PrettyPrinter::new`].
pub struct PrettyPrinter<'a, T: PrettyPrint> {
    prefix: &'static str,
    buffer: &'a dyn AsRef<[u8]>,
    form: PhantomData<T>,
}

impl<'a, T: PrettyPrint> PrettyPrinter<'a, T> {
    /// These octets, with a text before them.
    pub fn new(prefix: &'static str, buffer: &'a dyn AsRef<[u8]>) -> PrettyPrinter<'a, T> {
        PrettyPrinter { prefix, buffer, form: PhantomData }
    }
}

impl<'a, T: PrettyPrint + AsRef<[u8]>> PrettyPrinter<'a, T> {
    /// A packet.
    pub fn print(printable: &'a T) -> PrettyPrinter<'a, T> {
        PrettyPrinter { prefix: "", buffer: printable, form: PhantomData }
    }
}

impl<T: PrettyPrint> fmt::Display for PrettyPrinter<'_, T> {
    fn fmt(&self, f: &mut fmt::Formatter<'_>) -> fmt::Result {
        T::pretty_print(self.buffer, f, &mut PrettyIndent::new(self.prefix))
    }
}

impl<T: PrettyPrint> fmt::Debug for PrettyPrinter<'_, T> {
    fn fmt(&self, f: &mut fmt::Formatter<'_>) -> fmt::Result {
        fmt::Display::fmt(self, f)
    }
}

/// Writes what was read, or that it couldn't be.
fn said<T: fmt::Display>(f: &mut fmt::Formatter<'_>, read: super::Result<T>) -> fmt::Result {
    match read {
        Ok(values) => values.fmt(f),
        Err(error) => write!(f, "({error})"),
    }
}

impl<T: AsRef<[u8]>> PrettyPrint for EthernetFrame<T> {
    fn pretty_print(buffer: &dyn AsRef<[u8]>, f: &mut fmt::Formatter<'_>, indent: &mut PrettyIndent) -> fmt::Result {
        let frame = match EthernetFrame::new_checked(buffer.as_ref()) {
            Ok(frame) => frame,
            Err(error) => return write!(f, "{indent}({error})"),
        };
        write!(f, "{indent}{frame}")?;
        let payload = frame.payload();
        match frame.ethertype() {
            EthernetProtocol::Arp => {
                indent.increase(f)?;
                ArpPacket::<&[u8]>::pretty_print(&payload, f, indent)
            }
            EthernetProtocol::Ipv4 => {
                indent.increase(f)?;
                Ipv4Packet::<&[u8]>::pretty_print(&payload, f, indent)
            }
            EthernetProtocol::Ipv6 => {
                indent.increase(f)?;
                Ipv6Packet::<&[u8]>::pretty_print(&payload, f, indent)
            }
            EthernetProtocol::Unknown(_) => Ok(()),
        }
    }
}

impl<T: AsRef<[u8]>> PrettyPrint for ArpPacket<T> {
    fn pretty_print(buffer: &dyn AsRef<[u8]>, f: &mut fmt::Formatter<'_>, indent: &mut PrettyIndent) -> fmt::Result {
        write!(f, "{indent}")?;
        said(f, ArpPacket::new_checked(buffer.as_ref()).and_then(|packet| ArpRepr::parse(&packet)))
    }
}

impl<T: AsRef<[u8]>> PrettyPrint for Ipv4Packet<T> {
    fn pretty_print(buffer: &dyn AsRef<[u8]>, f: &mut fmt::Formatter<'_>, indent: &mut PrettyIndent) -> fmt::Result {
        let caps = ChecksumCapabilities::ignored();
        let read = Ipv4Packet::new_checked(buffer.as_ref()).and_then(|it| Ok((Ipv4Repr::parse(&it, &caps)?, it)));
        let (repr, packet) = match read {
            Ok(read) => read,
            Err(error) => return write!(f, "{indent}({error})"),
        };
        write!(f, "{indent}{repr}")?;
        checksum(f, packet.verify_checksum())?;
        if packet.more_frags() || packet.frag_offset() != 0 {
            let (more, offset, ident) = (packet.more_frags(), packet.frag_offset(), packet.ident());
            return write!(f, " fragment id={ident} offset={offset} more_frags={more} len={}", repr.payload_len);
        }
        let ends = (repr.src_addr.into(), repr.dst_addr.into());
        print_payload(f, indent, repr.next_header, packet.payload(), ends)
    }
}

impl<T: AsRef<[u8]>> PrettyPrint for Ipv6Packet<T> {
    fn pretty_print(buffer: &dyn AsRef<[u8]>, f: &mut fmt::Formatter<'_>, indent: &mut PrettyIndent) -> fmt::Result {
        let read = Ipv6Packet::new_checked(buffer.as_ref()).and_then(|it| Ok((Ipv6Repr::parse(&it)?, it)));
        let (repr, packet) = match read {
            Ok(read) => read,
            Err(error) => return write!(f, "{indent}({error})"),
        };
        write!(f, "{indent}{repr}")?;
        let ends = (repr.src_addr.into(), repr.dst_addr.into());
        print_extension(f, indent, repr.next_header, packet.payload(), ends)
    }
}

/// Says that a checksum is wrong. smoltcp does, of all but IPv4's, only if it is to verify it.
fn checksum(f: &mut fmt::Formatter<'_>, is_right: bool) -> fmt::Result {
    f.write_str(if is_right { "" } else { " (checksum incorrect)" })
}

/// Writes the extension headers of a packet of IPv6 (RFC 8200, 4), a line each, and what follows them.
fn print_extension(
    f: &mut fmt::Formatter<'_>,
    indent: &mut PrettyIndent,
    protocol: IpProtocol,
    payload: &[u8],
    ends: (IpAddress, IpAddress),
) -> fmt::Result {
    let is_options = matches!(protocol, IpProtocol::HopByHop | IpProtocol::Ipv6Route | IpProtocol::Ipv6Opts);
    if !is_options && protocol != IpProtocol::Ipv6Frag {
        return print_payload(f, indent, protocol, payload, ends);
    }
    indent.increase(f)?;
    write!(f, "{indent}{protocol}")?;
    let &[next, length, a, b, c, d, e, g, ..] = payload else { return f.write_str(" (truncated)") };
    let next = IpProtocol::from(next);
    if is_options {
        let octets = 8 * (usize::from(length) + 1);
        write!(f, " nxt_hdr={next} len={octets}")?;
        let Some(rest) = payload.get(octets..) else { return f.write_str(" (truncated)") };
        return print_extension(f, indent, next, rest, ends);
    }
    let (place, ident) = (u16::from_be_bytes([a, b]), u32::from_be_bytes([c, d, e, g]));
    let (offset, more) = (place & !7, place & 1 != 0);
    write!(f, " nxt_hdr={next} id={ident} offset={offset} more_frags={more} len={}", payload.len() - 8)?;
    if more || offset != 0 { Ok(()) } else { print_extension(f, indent, next, &payload[8..], ends) }
}

/// Writes what a packet of IP carries, whole.
fn print_payload(
    f: &mut fmt::Formatter<'_>,
    indent: &mut PrettyIndent,
    protocol: IpProtocol,
    payload: &[u8],
    (src_addr, dst_addr): (IpAddress, IpAddress),
) -> fmt::Result {
    let caps = ChecksumCapabilities::default();
    indent.increase(f)?;
    write!(f, "{indent}")?;
    match (protocol, src_addr, dst_addr) {
        (IpProtocol::Udp, ..) => print_udp(f, indent, payload, (src_addr, dst_addr)),
        (IpProtocol::Tcp, ..) => match TcpPacket::new_checked(payload) {
            Ok(segment) => {
                write!(f, "{segment}")?;
                checksum(f, segment.verify_checksum(&src_addr, &dst_addr))
            }
            Err(error) => write!(f, "({error})"),
        },
        (IpProtocol::Icmp, ..) => {
            said(f, Icmpv4Packet::new_checked(payload).and_then(|it| Icmpv4Repr::parse(&it, &caps)))
        }
        (IpProtocol::Igmp, ..) => said(f, IgmpPacket::new_checked(payload).and_then(|it| IgmpRepr::parse(&it))),
        (IpProtocol::Icmpv6, IpAddress::Ipv6(src), IpAddress::Ipv6(dst)) => {
            said(f, Icmpv6Packet::new_checked(payload).and_then(|it| Icmpv6Repr::parse(&src, &dst, &it, &caps)))
        }
        (other, ..) => write!(f, "{other} len={}", payload.len()),
    }
}

/// Writes a datagram, and the message of DHCP or DNS in it, by its ports.
fn print_udp(
    f: &mut fmt::Formatter<'_>,
    indent: &mut PrettyIndent,
    payload: &[u8],
    (src_addr, dst_addr): (IpAddress, IpAddress),
) -> fmt::Result {
    let caps = ChecksumCapabilities::ignored();
    let read =
        UdpPacket::new_checked(payload).and_then(|it| Ok((UdpRepr::parse(&it, &src_addr, &dst_addr, &caps)?, it)));
    let (repr, datagram) = match read {
        Ok(read) => read,
        Err(error) => return write!(f, "({error})"),
    };
    let message = datagram.payload();
    write!(f, "{repr} len={}", message.len())?;
    checksum(f, datagram.verify_checksum(&src_addr, &dst_addr))?;
    let is_at = |port: u16| repr.src_port == port || repr.dst_port == port;
    if is_at(67) || is_at(68) {
        indent.increase(f)?;
        write!(f, "{indent}{}", dhcp::Message(message))
    } else if is_at(53) {
        indent.increase(f)?;
        write!(f, "{indent}{}", dns::Message(message))
    } else {
        Ok(())
    }
}
