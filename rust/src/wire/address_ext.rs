//! What addresses tell beside what `core::net` has, by smoltcp's names.
use super::{Ipv4Address, Ipv6Address};

/// How many bits a mask has, all of them before the first that is 0. `None` if one is behind.
fn mask_len(mask: u128, bits: u32) -> Option<u8> {
    let is_prefix = mask.leading_ones() == mask.count_ones();
    is_prefix.then_some(mask.count_ones().min(bits) as u8)
}

/// What an IPv4 address tells.
pub trait Ipv4AddressExt {
    /// Whether it is neither a group's, nor 255.255.255.255, nor 0.0.0.0.
    fn x_is_unicast(&self) -> bool;

    /// The length of the prefix that it is the mask of. `None` if it is no mask.
    fn prefix_len(&self) -> Option<u8>;
}

impl Ipv4AddressExt for Ipv4Address {
    fn x_is_unicast(&self) -> bool {
        !(self.is_broadcast() || self.is_multicast() || self.is_unspecified())
    }

    fn prefix_len(&self) -> Option<u8> {
        mask_len(u128::from(u32::from(*self)) << 96, 32)
    }
}

/// How far a group of IPv6 reaches (RFC 4291, 2.7).
#[derive(Clone, Copy, Debug, PartialEq, Eq, PartialOrd, Ord, Hash)]
#[repr(u8)]
pub enum Ipv6MulticastScope {
    /// It stays in the interface.
    InterfaceLocal = 0x1,
    /// On the link.
    LinkLocal = 0x2,
    /// As far as an administrator says.
    AdminLocal = 0x4,
    /// In the site.
    SiteLocal = 0x5,
    /// In the organization.
    OrganizationLocal = 0x8,
    /// Everywhere.
    Global = 0xe,
    /// It has none that is known.
    Unknown = 0xff,
}

impl From<u8> for Ipv6MulticastScope {
    fn from(scope: u8) -> Ipv6MulticastScope {
        match scope {
            0x1 => Ipv6MulticastScope::InterfaceLocal,
            0x2 => Ipv6MulticastScope::LinkLocal,
            0x4 => Ipv6MulticastScope::AdminLocal,
            0x5 => Ipv6MulticastScope::SiteLocal,
            0x8 => Ipv6MulticastScope::OrganizationLocal,
            0xe => Ipv6MulticastScope::Global,
            _ => Ipv6MulticastScope::Unknown,
        }
    }
}

/// What an IPv6 address tells.
pub trait Ipv6AddressExt {
    /// Whether it is neither a group's nor ::.
    fn x_is_unicast(&self) -> bool;

    /// Whether it is one of 2000::/3 (RFC 3587, 3).
    fn is_global_unicast(&self) -> bool;

    /// Whether it is the solicited-node group of an address (RFC 4291, 2.7.1).
    fn is_solicited_node_multicast(&self) -> bool;

    /// The solicited-node group of it (RFC 4291, 2.7.1).
    ///
    /// # Panics
    /// If it isn't unicast, as smoltcp's.
    fn solicited_node(&self) -> Ipv6Address;

    /// How far it reaches: a group by its octet, another address by RFC 6724 3.1.
    fn x_multicast_scope(&self) -> Ipv6MulticastScope;

    /// Its first bits, so many, and zeros behind.
    ///
    /// # Panics
    /// If that are more than 128, as smoltcp's.
    fn mask(&self, mask: u8) -> [u8; 16];

    /// The length of the prefix that it is the mask of. `None` if it is no mask.
    fn prefix_len(&self) -> Option<u8>;
}

impl Ipv6AddressExt for Ipv6Address {
    fn x_is_unicast(&self) -> bool {
        !(self.is_multicast() || self.is_unspecified())
    }

    fn is_global_unicast(&self) -> bool {
        self.octets()[0] >> 5 == 0b001
    }

    fn is_solicited_node_multicast(&self) -> bool {
        self.octets()[..13] == SOLICITED_NODE.octets()[..13]
    }

    fn solicited_node(&self) -> Ipv6Address {
        assert!(self.x_is_unicast(), "the address isn't unicast");
        let mut group = SOLICITED_NODE.octets();
        group[13..].copy_from_slice(&self.octets()[13..]);
        group.into()
    }

    fn x_multicast_scope(&self) -> Ipv6MulticastScope {
        if self.is_multicast() {
            (self.octets()[1] & 0x0f).into()
        } else if self.is_unicast_link_local() {
            Ipv6MulticastScope::LinkLocal
        } else if self.is_unique_local() || self.is_global_unicast() {
            Ipv6MulticastScope::Global
        } else {
            Ipv6MulticastScope::Unknown
        }
    }

    fn mask(&self, mask: u8) -> [u8; 16] {
        assert!(mask <= 128, "more bits than an address has");
        let ones = u128::MAX.checked_shl(128 - u32::from(mask)).unwrap_or(0);
        (u128::from(*self) & ones).to_be_bytes()
    }

    fn prefix_len(&self) -> Option<u8> {
        mask_len(u128::from(*self), 128)
    }
}

/// What the solicited-node groups begin with.
const SOLICITED_NODE: Ipv6Address = Ipv6Address::new(0xff02, 0, 0, 0, 0, 1, 0xff00, 0);
