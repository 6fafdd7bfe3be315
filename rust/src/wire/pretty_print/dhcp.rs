//! Messages of DHCP (RFC 2131, 2) as text.
use crate::wire::{EthernetAddress, Ipv4Address};
use core::fmt;

/// The octets of a message before its options, with the four that say that these follow.
const HEADER_LEN: usize = 240;

/// A message of DHCP, which is written as one line.
pub(super) struct Message<'a>(pub(super) &'a [u8]);

impl fmt::Display for Message<'_> {
    fn fmt(&self, f: &mut fmt::Formatter<'_>) -> fmt::Result {
        let Some((header, options)) = self.0.split_at_checked(HEADER_LEN) else {
            return f.write_str("DHCP (truncated)");
        };
        f.write_str(match header[0] {
            1 => "DHCP request",
            2 => "DHCP reply",
            _ => "DHCP (neither a request nor a reply)",
        })?;
        write!(f, " xid={:02x}{:02x}{:02x}{:02x}", header[4], header[5], header[6], header[7])?;
        write!(f, " chaddr={}", EthernetAddress::from_bytes(&header[28..34]))?;
        for (at, name) in [(12, "ciaddr"), (16, "yiaddr"), (20, "siaddr"), (24, "giaddr")] {
            let address = address(&header[at..at + 4]);
            if !address.is_unspecified() {
                write!(f, " {name}={address}")?;
            }
        }
        if header[10] & 0x80 != 0 {
            f.write_str(" broadcast")?;
        }
        if header[236..] != [99, 130, 83, 99] {
            return f.write_str(" (no options)");
        }
        print_options(f, options)
    }
}

/// The address of four octets.
fn address(octets: &[u8]) -> Ipv4Address {
    Ipv4Address::new(octets[0], octets[1], octets[2], octets[3])
}

/// Writes options (RFC 2132, 2), to the one that ends them.
fn print_options(f: &mut fmt::Formatter<'_>, mut options: &[u8]) -> fmt::Result {
    loop {
        match options {
            [] | [255, ..] => return Ok(()),
            [0, rest @ ..] => options = rest,
            [kind, length, rest @ ..] if rest.len() >= usize::from(*length) => {
                let (data, rest) = rest.split_at(usize::from(*length));
                print_option(f, *kind, data)?;
                options = rest;
            }
            _ => return f.write_str(" (truncated)"),
        }
    }
}

/// Writes an option: those of RFC 2132 that a lease is about by their names.
fn print_option(f: &mut fmt::Formatter<'_>, kind: u8, data: &[u8]) -> fmt::Result {
    match (kind, data) {
        (1, &[_, _, _, _]) => write!(f, " mask={}", address(data)),
        (3, _) if is_list(data) => print_addresses(f, "router", data),
        (6, _) if is_list(data) => print_addresses(f, "dns", data),
        (12, _) => write!(f, " hostname={:?}", Text(data)),
        (50, &[_, _, _, _]) => write!(f, " requested={}", address(data)),
        (51, &[a, b, c, d]) => write!(f, " lease={}s", u32::from_be_bytes([a, b, c, d])),
        (53, &[kind]) => write!(f, " type={}", Kind(kind)),
        (54, &[_, _, _, _]) => write!(f, " server={}", address(data)),
        (55, _) => write!(f, " parameters={data:?}"),
        (57, &[a, b]) => write!(f, " max_size={}", u16::from_be_bytes([a, b])),
        (58, &[a, b, c, d]) => write!(f, " t1={}s", u32::from_be_bytes([a, b, c, d])),
        (59, &[a, b, c, d]) => write!(f, " t2={}s", u32::from_be_bytes([a, b, c, d])),
        (61, &[1, _, _, _, _, _, _]) => write!(f, " client={}", EthernetAddress::from_bytes(&data[1..])),
        _ => write!(f, " opt({kind})"),
    }
}

fn is_list(data: &[u8]) -> bool {
    !data.is_empty() && data.len() % 4 == 0
}

fn print_addresses(f: &mut fmt::Formatter<'_>, name: &str, data: &[u8]) -> fmt::Result {
    data.chunks_exact(4).try_for_each(|octets| write!(f, " {name}={}", address(octets)))
}

/// Octets as a text.
pub(super) struct Text<'a>(pub(super) &'a [u8]);

impl fmt::Debug for Text<'_> {
    fn fmt(&self, f: &mut fmt::Formatter<'_>) -> fmt::Result {
        write!(f, "\"{}\"", self.0.escape_ascii())
    }
}

/// The type of a message (RFC 2132, 9.6).
struct Kind(u8);

impl fmt::Display for Kind {
    fn fmt(&self, f: &mut fmt::Formatter<'_>) -> fmt::Result {
        f.write_str(match self.0 {
            1 => "discover",
            2 => "offer",
            3 => "request",
            4 => "decline",
            5 => "ack",
            6 => "nak",
            7 => "release",
            8 => "inform",
            other => return other.fmt(f),
        })
    }
}
