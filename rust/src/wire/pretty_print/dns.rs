//! Messages of DNS (RFC 1035, 4) as text.
use crate::wire::{Ipv4Address, Ipv6Address};
use core::fmt;

/// The octets of a header.
const HEADER_LEN: usize = 12;

/// The octets of the longest name (RFC 1035, 2.3.4). A place that refers to another one counts too, so that each name ends.
const MOST_OCTETS: usize = 255;

/// A message of DNS, which is written as one line.
pub(super) struct Message<'a>(pub(super) &'a [u8]);

impl fmt::Display for Message<'_> {
    fn fmt(&self, f: &mut fmt::Formatter<'_>) -> fmt::Result {
        if self.0.len() < HEADER_LEN {
            return f.write_str("DNS (truncated)");
        }
        let word = |at: usize| u16::from_be_bytes([self.0[at], self.0[at + 1]]);
        let flags = word(2);
        f.write_str(if flags & 0x8000 == 0 { "DNS query" } else { "DNS response" })?;
        write!(f, " id={:04x}", word(0))?;
        match flags >> 11 & 0x0f {
            0 => {}
            opcode => write!(f, " opcode={opcode}")?,
        }
        if flags & 0x8000 != 0 {
            write!(f, " rcode={}", Rcode(flags & 0x0f))?;
        }
        for (mask, name) in [(0x0400, "aa"), (0x0200, "tc"), (0x0100, "rd"), (0x0080, "ra")] {
            if flags & mask != 0 {
                write!(f, " {name}")?;
            }
        }
        match print_sections(f, self.0, word(4), word(6))? {
            Some(_) => write!(f, " authority={} additional={}", word(8), word(10)),
            None => f.write_str(" (truncated)"),
        }
    }
}

/// Writes questions and answers. `None` if not all of them are there.
fn print_sections(
    f: &mut fmt::Formatter<'_>,
    message: &[u8],
    questions: u16,
    answers: u16,
) -> Result<Option<usize>, fmt::Error> {
    let mut at = HEADER_LEN;
    for _ in 0..questions {
        let Some((name_end, [a, b, _, _])) = end_of(message, at).and_then(|end| Some((end, octets(message, end)?)))
        else {
            return Ok(None);
        };
        write!(f, " {}? {}", Type(u16::from_be_bytes([a, b])), Name { message, at })?;
        at = name_end + 4;
    }
    for _ in 0..answers {
        let Some(end) = print_record(f, message, at)? else { return Ok(None) };
        at = end;
    }
    Ok(Some(at))
}

/// Writes a record (RFC 1035, 3.2.1), and returns where it ends. `None` if not all of it is there.
fn print_record(f: &mut fmt::Formatter<'_>, message: &[u8], at: usize) -> Result<Option<usize>, fmt::Error> {
    let Some(start) = end_of(message, at) else { return Ok(None) };
    let Some([a, b, _, _, t0, t1, t2, t3, l0, l1]) = octets(message, start) else { return Ok(None) };
    let (kind, length) = (u16::from_be_bytes([a, b]), usize::from(u16::from_be_bytes([l0, l1])));
    let Some(data) = message.get(start + 10..start + 10 + length) else { return Ok(None) };
    write!(f, " {} {} ttl={}", Name { message, at }, Type(kind), u32::from_be_bytes([t0, t1, t2, t3]))?;
    match (kind, data) {
        (1, &[a, b, c, d]) => write!(f, " {}", Ipv4Address::new(a, b, c, d))?,
        (2 | 5 | 12, _) => write!(f, " {}", Name { message, at: start + 10 })?,
        (28, _) => match <[u8; 16]>::try_from(data) {
            Ok(address) => write!(f, " {}", Ipv6Address::from(address))?,
            Err(_) => f.write_str(" (malformed)")?,
        },
        _ => write!(f, " len={length}")?,
    }
    Ok(Some(start + 10 + length))
}

fn octets<const N: usize>(message: &[u8], at: usize) -> Option<[u8; N]> {
    message.get(at..at + N)?.try_into().ok()
}

/// Where a name ends, or the place in it that refers to another one.
fn end_of(message: &[u8], mut at: usize) -> Option<usize> {
    loop {
        match *message.get(at)? {
            0 => return Some(at + 1),
            length if length >= 0xc0 => return Some(at + 2),
            length => at += 1 + usize::from(length),
        }
    }
}

/// A name, by labels, some of which may stand elsewhere in the message (RFC 1035, 4.1.4).
struct Name<'a> {
    message: &'a [u8],
    at: usize,
}

impl fmt::Display for Name<'_> {
    fn fmt(&self, f: &mut fmt::Formatter<'_>) -> fmt::Result {
        let (mut at, mut octets, mut between) = (self.at, 0, "");
        while octets < MOST_OCTETS {
            match self.message.get(at..) {
                Some([0, ..]) => return f.write_str(if between.is_empty() { "." } else { "" }),
                Some([high, low, ..]) if *high >= 0xc0 => {
                    at = usize::from(high & 0x3f) << 8 | usize::from(*low);
                    octets += 2;
                }
                Some([length, rest @ ..]) if *length < 0x40 && rest.len() >= usize::from(*length) => {
                    write!(f, "{between}{}", rest[..usize::from(*length)].escape_ascii())?;
                    (at, octets) = (at + 1 + usize::from(*length), octets + 1 + usize::from(*length));
                    between = ".";
                }
                _ => break,
            }
        }
        f.write_str(" (malformed name)")
    }
}

/// The type of a record (RFC 1035, 3.2.2; RFC 3596, 2.1).
struct Type(u16);

impl fmt::Display for Type {
    fn fmt(&self, f: &mut fmt::Formatter<'_>) -> fmt::Result {
        f.write_str(match self.0 {
            1 => "A",
            2 => "NS",
            5 => "CNAME",
            6 => "SOA",
            12 => "PTR",
            15 => "MX",
            16 => "TXT",
            28 => "AAAA",
            other => return write!(f, "type({other})"),
        })
    }
}

/// What a response says (RFC 1035, 4.1.1).
struct Rcode(u16);

impl fmt::Display for Rcode {
    fn fmt(&self, f: &mut fmt::Formatter<'_>) -> fmt::Result {
        f.write_str(match self.0 {
            0 => "no_error",
            1 => "format_error",
            2 => "server_failure",
            3 => "name_error",
            4 => "not_implemented",
            5 => "refused",
            other => return other.fmt(f),
        })
    }
}
