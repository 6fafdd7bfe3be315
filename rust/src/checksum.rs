//! Which checksums the library computes, by smoltcp's names.
use crate::sys;

/// Whether a checksum is verified on receipt, and computed when sending.
#[derive(Clone, Copy, Debug, Default, PartialEq, Eq)]
pub enum Checksum {
    /// It is verified and computed.
    #[default]
    Both,
    /// It is verified alone: what is sent has 0 in its place.
    Rx,
    /// It is computed alone.
    Tx,
    /// Neither.
    None,
}

impl Checksum {
    /// Whether it is verified on receipt.
    pub fn rx(&self) -> bool {
        matches!(self, Checksum::Both | Checksum::Rx)
    }

    /// Whether it is computed when sending.
    pub fn tx(&self) -> bool {
        matches!(self, Checksum::Both | Checksum::Tx)
    }

    fn to_c(self) -> u8 {
        match self {
            Checksum::Both => sys::IFACE_BOTH,
            Checksum::Rx => sys::IFACE_VERIFIED,
            Checksum::Tx => sys::IFACE_COMPUTED,
            Checksum::None => sys::IFACE_NEITHER,
        }
    }
}

/// Which checksums the library verifies and computes, by protocol: all, unless they are set. The device does the others.
#[derive(Clone, Copy, Debug, Default, PartialEq, Eq)]
#[non_exhaustive]
pub struct ChecksumCapabilities {
    /// That of IPv4's headers.
    pub ipv4: Checksum,
    /// That of UDP.
    pub udp: Checksum,
    /// That of TCP.
    pub tcp: Checksum,
    /// That of ICMP.
    pub icmpv4: Checksum,
    /// That of ICMPv6.
    pub icmpv6: Checksum,
}

impl ChecksumCapabilities {
    /// No checksum is verified, and none computed.
    pub fn ignored() -> ChecksumCapabilities {
        let none = Checksum::None;
        ChecksumCapabilities { ipv4: none, udp: none, tcp: none, icmpv4: none, icmpv6: none }
    }

    pub(crate) fn to_c(self) -> sys::iface_checksums {
        sys::iface_checksums {
            ipv4: self.ipv4.to_c(),
            udp: self.udp.to_c(),
            tcp: self.tcp.to_c(),
            icmpv4: self.icmpv4.to_c(),
            icmpv6: self.icmpv6.to_c(),
        }
    }
}
