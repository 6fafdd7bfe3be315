//! What the forms share: numbers with names, flags, views of octets, and the checksum of the Internet.
use super::IpAddress;

macro_rules! enum_with_unknown {
    (
        $(#[$docs:meta])*
        pub enum $enum:ident($number:ty) {
            $($(#[$name_docs:meta])* $name:ident = $value:literal,)*
        }
    ) => {
        $(#[$docs])*
        #[derive(Clone, Copy, Debug, PartialEq, Eq, PartialOrd, Ord, Hash)]
        pub enum $enum {
            $($(#[$name_docs])* $name,)*
            /// Any other number.
            Unknown($number),
        }

        impl From<$number> for $enum {
            fn from(number: $number) -> $enum {
                match number {
                    $($value => $enum::$name,)*
                    other => $enum::Unknown(other),
                }
            }
        }

        impl From<$enum> for $number {
            fn from(named: $enum) -> $number {
                match named {
                    $($enum::$name => $value,)*
                    $enum::Unknown(number) => number,
                }
            }
        }
    };
}

macro_rules! flags {
    (
        $(#[$docs:meta])*
        pub struct $flags:ident {
            $($(#[$name_docs:meta])* $name:ident = $value:literal;)*
        }
    ) => {
        $(#[$docs])*
        #[derive(Clone, Copy, Debug, Default, PartialEq, Eq, PartialOrd, Ord, Hash)]
        pub struct $flags(u8);

        impl $flags {
            $($(#[$name_docs])* pub const $name: $flags = $flags($value);)*

            /// None of them.
            pub const fn empty() -> $flags {
                $flags(0)
            }

            /// Those that are set in an octet; its other bits are left out.
            pub const fn from_bits_truncate(bits: u8) -> $flags {
                $flags(bits & (0 $(| $value)*))
            }

            /// The octet in which they are set.
            pub const fn bits(&self) -> u8 {
                self.0
            }

            /// Whether all of these are set.
            pub const fn contains(&self, other: $flags) -> bool {
                self.0 & other.0 == other.0
            }

            /// Whether none is set.
            pub const fn is_empty(&self) -> bool {
                self.0 == 0
            }
        }

        impl core::ops::BitOr for $flags {
            type Output = $flags;

            fn bitor(self, other: $flags) -> $flags {
                $flags(self.0 | other.0)
            }
        }
    };
}

macro_rules! view {
    ($(#[$docs:meta])* $name:ident) => {
        $(#[$docs])*
        #[derive(Clone, Debug, PartialEq, Eq)]
        pub struct $name<T: AsRef<[u8]>> {
            pub(super) buffer: T,
        }

        impl<T: AsRef<[u8]>> $name<T> {
            /// A view of octets that aren't tested. A call for what isn't there panics.
            pub const fn new_unchecked(buffer: T) -> $name<T> {
                $name { buffer }
            }

            /// A view of octets that are long enough for each call.
            ///
            /// # Errors
            /// Those of `check_len`.
            pub fn new_checked(buffer: T) -> crate::wire::Result<$name<T>> {
                let packet = $name { buffer };
                packet.check_len()?;
                Ok(packet)
            }

            /// The octets.
            pub fn into_inner(self) -> T {
                self.buffer
            }

            #[allow(dead_code)]
            pub(super) fn u8_at(&self, at: usize) -> u8 {
                self.buffer.as_ref()[at]
            }

            #[allow(dead_code)]
            pub(super) fn u16_at(&self, at: usize) -> u16 {
                u16::from_be_bytes(self.octets_at(at))
            }

            #[allow(dead_code)]
            pub(super) fn octets_at<const N: usize>(&self, at: usize) -> [u8; N] {
                let mut octets = [0; N];
                octets.copy_from_slice(&self.buffer.as_ref()[at..at + N]);
                octets
            }
        }

        impl<T: AsRef<[u8]> + AsMut<[u8]>> $name<T> {
            pub(super) fn put(&mut self, at: usize, octets: &[u8]) {
                self.buffer.as_mut()[at..at + octets.len()].copy_from_slice(octets);
            }
        }

        impl<T: AsRef<[u8]>> AsRef<[u8]> for $name<T> {
            fn as_ref(&self) -> &[u8] {
                self.buffer.as_ref()
            }
        }
    };
}

/// The ones' complement sum of 16-bit words (RFC 1071), the last octet of an odd number padded by zero.
pub(super) fn sum(octets: &[u8]) -> u32 {
    let word = |pair: &[u8]| u32::from(pair[0]) << 8 | pair.get(1).map_or(0, |low| u32::from(*low));
    octets.chunks(2).fold(0, |sum, pair| folded(sum + word(pair)))
}

/// A sum as one of 16 bits.
pub(super) fn folded(sum: u32) -> u32 {
    let once = (sum & 0xffff) + (sum >> 16);
    (once & 0xffff) + (once >> 16)
}

/// The sum of a pseudo-header (RFC 768 for IPv4, RFC 8200 8.1 for IPv6).
///
/// # Panics
/// If the addresses are of two versions.
pub(super) fn pseudo_header(src_addr: &IpAddress, dst_addr: &IpAddress, protocol: u8, length: usize) -> u32 {
    let addresses = match (src_addr, dst_addr) {
        (IpAddress::Ipv4(src), IpAddress::Ipv4(dst)) => sum(&src.octets()) + sum(&dst.octets()),
        (IpAddress::Ipv6(src), IpAddress::Ipv6(dst)) => sum(&src.octets()) + sum(&dst.octets()),
        _ => panic!("addresses of two versions"),
    };
    folded(addresses + u32::from(protocol) + folded(length as u32))
}
