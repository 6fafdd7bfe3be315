//! Neighbour discovery (RFC 4861): messages of neighbours and of routers, over ICMPv6, and their options.
use super::icmpv6::{Icmpv6Message, Icmpv6Packet};
use super::{Error, EthernetAddress, IPV6_HEADER_LEN, Ipv6Address, Ipv6Packet, Ipv6Repr, Result};
use crate::time::Duration;
use core::fmt;

flags! {
    /// What a router says of itself (RFC 4861 4.2).
    pub struct NdiscRouterFlags {
        /// Addresses are to be had by DHCPv6.
        MANAGED = 0x80;
        /// Other configuration is to be had by DHCPv6.
        OTHER = 0x40;
    }
}

flags! {
    /// What a neighbour says of its advertisement (RFC 4861 4.4).
    pub struct NdiscNeighborFlags {
        /// The sender is a router.
        ROUTER = 0x80;
        /// It answers a solicitation.
        SOLICITED = 0x40;
        /// It overrides what is known.
        OVERRIDE = 0x20;
    }
}

flags! {
    /// What a router says of a prefix (RFC 4861 4.6.2).
    pub struct NdiscPrefixInfoFlags {
        /// Its addresses are on the link.
        ON_LINK = 0x80;
        /// Addresses may be formed from it (RFC 4862).
        ADDRCONF = 0x40;
    }
}

enum_with_unknown! {
    /// The type of an option.
    pub enum NdiscOptionType(u8) {
        /// The link-layer address of the sender.
        SourceLinkLayerAddr = 1,
        /// The link-layer address of the target.
        TargetLinkLayerAddr = 2,
        /// A prefix.
        PrefixInformation = 3,
        /// The packet that a redirect is about.
        RedirectedHeader = 4,
        /// The longest packet of the link.
        Mtu = 5,
    }
}

/// The octets of a link-layer address, of six or fewer.
#[derive(Clone, Copy, Debug, PartialEq, Eq, PartialOrd, Ord, Hash)]
pub struct RawHardwareAddress {
    len: u8,
    octets: [u8; 6],
}

impl RawHardwareAddress {
    /// The address of some octets.
    ///
    /// # Panics
    /// If there are more than six.
    pub fn from_bytes(octets: &[u8]) -> RawHardwareAddress {
        let mut own = [0; 6];
        own[..octets.len()].copy_from_slice(octets);
        RawHardwareAddress { len: octets.len() as u8, octets: own }
    }

    /// Its octets.
    pub fn as_bytes(&self) -> &[u8] {
        &self.octets[..usize::from(self.len)]
    }

    /// How many there are.
    pub const fn len(&self) -> usize {
        self.len as usize
    }

    /// Whether there is none.
    pub const fn is_empty(&self) -> bool {
        self.len == 0
    }

    /// The address that it is on a medium.
    ///
    /// # Errors
    /// [`Error`] if it hasn't six octets, or the medium has no hardware addresses, where smoltcp panics.
    #[cfg(feature = "alloc")]
    pub fn parse(&self, medium: crate::phy::Medium) -> Result<super::HardwareAddress> {
        match medium {
            crate::phy::Medium::Ethernet if self.len == 6 => Ok(EthernetAddress(self.octets).into()),
            _ => Err(Error),
        }
    }
}

impl From<EthernetAddress> for RawHardwareAddress {
    fn from(address: EthernetAddress) -> RawHardwareAddress {
        RawHardwareAddress { len: 6, octets: address.0 }
    }
}

impl fmt::Display for RawHardwareAddress {
    fn fmt(&self, f: &mut fmt::Formatter<'_>) -> fmt::Result {
        for (i, octet) in self.as_bytes().iter().enumerate() {
            let between = if i == 0 { "" } else { ":" };
            write!(f, "{between}{octet:02x}")?;
        }
        Ok(())
    }
}

/// The octets of an option with one link-layer address, and of one with a prefix.
const LLADDR_LEN: usize = 8;
const PREFIX_LEN: usize = 32;
const MTU_LEN: usize = 8;

view! {
    /// An option of neighbour discovery (RFC 4861 4.6).
    NdiscOption
}

impl<T: AsRef<[u8]>> NdiscOption<T> {
    /// Tests that the option is there, as long as it says and as its type has to be.
    ///
    /// # Errors
    /// [`Error`] if it has a length of 0 (RFC 4861 4.6), is longer than the octets, or shorter than its type has it.
    pub fn check_len(&self) -> Result<()> {
        let octets = self.buffer.as_ref();
        if octets.len() < 8 {
            return Err(Error);
        }
        let len = 8 * usize::from(self.data_len());
        let least = match self.option_type() {
            NdiscOptionType::PrefixInformation => PREFIX_LEN,
            NdiscOptionType::RedirectedHeader => 8 + IPV6_HEADER_LEN,
            _ => 8,
        };
        if len < least || octets.len() < len { Err(Error) } else { Ok(()) }
    }

    /// The type.
    pub fn option_type(&self) -> NdiscOptionType {
        self.u8_at(0).into()
    }

    /// The length, in units of eight octets.
    pub fn data_len(&self) -> u8 {
        self.u8_at(1)
    }

    /// The link-layer address of an option of one unit.
    pub fn link_layer_addr(&self) -> RawHardwareAddress {
        RawHardwareAddress::from_bytes(&self.octets_at::<6>(2))
    }

    /// The longest packet of the link.
    pub fn mtu(&self) -> u32 {
        u32::from_be_bytes(self.octets_at(4))
    }

    /// The length of the prefix, in bits.
    pub fn prefix_len(&self) -> u8 {
        self.u8_at(2)
    }

    /// What the router says of the prefix.
    pub fn prefix_flags(&self) -> NdiscPrefixInfoFlags {
        NdiscPrefixInfoFlags::from_bits_truncate(self.u8_at(3))
    }

    /// How long the prefix is valid.
    pub fn valid_lifetime(&self) -> Duration {
        Duration::from_secs(u32::from_be_bytes(self.octets_at(4)).into())
    }

    /// How long addresses of the prefix are preferred.
    pub fn preferred_lifetime(&self) -> Duration {
        Duration::from_secs(u32::from_be_bytes(self.octets_at(8)).into())
    }

    /// The prefix, with the bits behind it as they stand there.
    pub fn prefix(&self) -> Ipv6Address {
        self.octets_at::<16>(16).into()
    }
}

impl<'a, T: AsRef<[u8]> + ?Sized> NdiscOption<&'a T> {
    /// What is behind type and length.
    pub fn data(&self) -> &'a [u8] {
        let octets = self.buffer.as_ref();
        &octets[2..8 * usize::from(octets[1])]
    }
}

impl<T: AsRef<[u8]> + AsMut<[u8]>> NdiscOption<T> {
    /// Sets the type.
    pub fn set_option_type(&mut self, value: NdiscOptionType) {
        self.put(0, &[value.into()]);
    }

    /// Sets the length, in units of eight octets.
    pub fn set_data_len(&mut self, value: u8) {
        self.put(1, &[value]);
    }

    /// Sets the link-layer address.
    pub fn set_link_layer_addr(&mut self, value: RawHardwareAddress) {
        self.put(2, value.as_bytes());
    }

    /// Sets the longest packet of the link.
    pub fn set_mtu(&mut self, value: u32) {
        self.put(4, &value.to_be_bytes());
    }

    /// Sets the length of the prefix, in bits.
    pub fn set_prefix_len(&mut self, value: u8) {
        self.put(2, &[value]);
    }

    /// Sets what the router says of the prefix.
    pub fn set_prefix_flags(&mut self, value: NdiscPrefixInfoFlags) {
        self.put(3, &[value.bits()]);
    }

    /// Sets how long the prefix is valid, in whole seconds, of 32 bits.
    pub fn set_valid_lifetime(&mut self, value: Duration) {
        self.put(4, &(value.secs() as u32).to_be_bytes());
    }

    /// Sets how long addresses of the prefix are preferred, in whole seconds, of 32 bits.
    pub fn set_preferred_lifetime(&mut self, value: Duration) {
        self.put(8, &(value.secs() as u32).to_be_bytes());
    }

    /// Sets the prefix.
    pub fn set_prefix(&mut self, value: Ipv6Address) {
        self.put(16, &value.octets());
    }

    /// Sets the octets that nothing is said by to 0: four before a prefix, six before a redirected packet, two before an MTU.
    pub fn clear_reserved(&mut self) {
        match self.option_type() {
            NdiscOptionType::PrefixInformation => self.put(12, &[0; 4]),
            NdiscOptionType::RedirectedHeader => self.put(2, &[0; 6]),
            NdiscOptionType::Mtu => self.put(2, &[0; 2]),
            _ => {}
        }
    }
}

/// A prefix, as a router advertises it (RFC 4861 4.6.2).
#[derive(Clone, Copy, Debug, PartialEq, Eq)]
pub struct NdiscPrefixInformation {
    /// The length of the prefix, in bits.
    pub prefix_len: u8,
    /// What the router says of it.
    pub flags: NdiscPrefixInfoFlags,
    /// How long it is valid.
    pub valid_lifetime: Duration,
    /// How long its addresses are preferred.
    pub preferred_lifetime: Duration,
    /// The prefix.
    pub prefix: Ipv6Address,
}

/// The packet that a redirect is about, as much of it as there is (RFC 4861 4.6.3).
#[derive(Clone, Copy, Debug, PartialEq, Eq)]
pub struct NdiscRedirectedHeader<'a> {
    /// Its header.
    pub header: Ipv6Repr,
    /// What comes behind that.
    pub data: &'a [u8],
}

/// The values of an option.
#[derive(Clone, Copy, Debug, PartialEq, Eq)]
pub enum NdiscOptionRepr<'a> {
    /// The link-layer address of the sender.
    SourceLinkLayerAddr(RawHardwareAddress),
    /// The link-layer address of the target.
    TargetLinkLayerAddr(RawHardwareAddress),
    /// A prefix.
    PrefixInformation(NdiscPrefixInformation),
    /// The packet that a redirect is about.
    RedirectedHeader(NdiscRedirectedHeader<'a>),
    /// The longest packet of the link.
    Mtu(u32),
    /// Another option.
    Unknown {
        /// Its type.
        type_: u8,
        /// Its length, in units of eight octets.
        length: u8,
        /// What is behind these.
        data: &'a [u8],
    },
}

impl<'a> NdiscOptionRepr<'a> {
    /// Reads an option.
    ///
    /// # Errors
    /// Those of [`NdiscOption::check_len`]; and [`Error`] if a link-layer address or an MTU isn't in one unit, a prefix
    /// not in four, or a redirected packet isn't of IPv6.
    pub fn parse<T: AsRef<[u8]> + ?Sized>(option: &NdiscOption<&'a T>) -> Result<NdiscOptionRepr<'a>> {
        option.check_len()?;
        let data = option.data();
        match (option.option_type(), option.data_len()) {
            (NdiscOptionType::SourceLinkLayerAddr, 1) => {
                Ok(NdiscOptionRepr::SourceLinkLayerAddr(option.link_layer_addr()))
            }
            (NdiscOptionType::TargetLinkLayerAddr, 1) => {
                Ok(NdiscOptionRepr::TargetLinkLayerAddr(option.link_layer_addr()))
            }
            (NdiscOptionType::PrefixInformation, 4) => Ok(NdiscOptionRepr::PrefixInformation(NdiscPrefixInformation {
                prefix_len: option.prefix_len(),
                flags: option.prefix_flags(),
                valid_lifetime: option.valid_lifetime(),
                preferred_lifetime: option.preferred_lifetime(),
                prefix: option.prefix(),
            })),
            (NdiscOptionType::RedirectedHeader, _) => {
                let packet = &data[6..];
                let view = Ipv6Packet::new_unchecked(packet);
                if view.version() != 6 {
                    return Err(Error);
                }
                let header = Ipv6Repr {
                    src_addr: view.src_addr(),
                    dst_addr: view.dst_addr(),
                    next_header: view.next_header(),
                    payload_len: usize::from(view.payload_len()),
                    hop_limit: view.hop_limit(),
                };
                // What is behind the packet only fills the option up.
                let rest = &packet[IPV6_HEADER_LEN..];
                let data = &rest[..header.payload_len.min(rest.len())];
                Ok(NdiscOptionRepr::RedirectedHeader(NdiscRedirectedHeader { header, data }))
            }
            (NdiscOptionType::Mtu, 1) => Ok(NdiscOptionRepr::Mtu(option.mtu())),
            (NdiscOptionType::Unknown(type_), length) => Ok(NdiscOptionRepr::Unknown { type_, length, data }),
            _ => Err(Error),
        }
    }

    /// The octets that `emit` writes, a multiple of eight.
    pub const fn buffer_len(&self) -> usize {
        match self {
            NdiscOptionRepr::SourceLinkLayerAddr(_) | NdiscOptionRepr::TargetLinkLayerAddr(_) => LLADDR_LEN,
            NdiscOptionRepr::PrefixInformation(_) => PREFIX_LEN,
            NdiscOptionRepr::RedirectedHeader(told) => (8 + IPV6_HEADER_LEN + told.data.len()).next_multiple_of(8),
            NdiscOptionRepr::Mtu(_) => MTU_LEN,
            NdiscOptionRepr::Unknown { length, .. } => 8 * *length as usize,
        }
    }

    /// Writes the option. Octets behind a redirected packet, up to a multiple of eight, are 0.
    ///
    /// # Panics
    /// If there are fewer octets, or the data of an unknown option isn't as long as it says.
    pub fn emit<T: AsRef<[u8]> + AsMut<[u8]>>(&self, option: &mut NdiscOption<T>) {
        let len = self.buffer_len();
        option.buffer.as_mut()[..len].fill(0);
        option.set_data_len((len / 8) as u8);
        match *self {
            NdiscOptionRepr::SourceLinkLayerAddr(address) => {
                option.set_option_type(NdiscOptionType::SourceLinkLayerAddr);
                option.set_link_layer_addr(address);
            }
            NdiscOptionRepr::TargetLinkLayerAddr(address) => {
                option.set_option_type(NdiscOptionType::TargetLinkLayerAddr);
                option.set_link_layer_addr(address);
            }
            NdiscOptionRepr::PrefixInformation(told) => {
                option.set_option_type(NdiscOptionType::PrefixInformation);
                option.set_prefix_len(told.prefix_len);
                option.set_prefix_flags(told.flags);
                option.set_valid_lifetime(told.valid_lifetime);
                option.set_preferred_lifetime(told.preferred_lifetime);
                option.set_prefix(told.prefix);
            }
            NdiscOptionRepr::RedirectedHeader(told) => {
                option.set_option_type(NdiscOptionType::RedirectedHeader);
                told.header.emit(&mut Ipv6Packet::new_unchecked(&mut option.buffer.as_mut()[8..8 + IPV6_HEADER_LEN]));
                option.put(8 + IPV6_HEADER_LEN, told.data);
            }
            NdiscOptionRepr::Mtu(mtu) => {
                option.set_option_type(NdiscOptionType::Mtu);
                option.set_mtu(mtu);
            }
            NdiscOptionRepr::Unknown { type_, length, data } => {
                option.set_option_type(NdiscOptionType::Unknown(type_));
                assert_eq!(data.len() + 2, 8 * usize::from(length));
                option.put(2, data);
            }
        }
    }
}

impl<T: AsRef<[u8]>> Icmpv6Packet<T> {
    /// The hop limit that a router advises.
    pub fn current_hop_limit(&self) -> u8 {
        self.u8_at(4)
    }

    /// What a router says of itself.
    pub fn router_flags(&self) -> NdiscRouterFlags {
        NdiscRouterFlags::from_bits_truncate(self.u8_at(5))
    }

    /// How long a router is one for other networks.
    pub fn router_lifetime(&self) -> Duration {
        Duration::from_secs(self.u16_at(6).into())
    }

    /// How long a neighbour counts as reachable, by a router's advertisement.
    pub fn reachable_time(&self) -> Duration {
        Duration::from_millis(u32::from_be_bytes(self.octets_at(8)).into())
    }

    /// How far solicitations are apart, by a router's advertisement.
    pub fn retrans_time(&self) -> Duration {
        Duration::from_millis(u32::from_be_bytes(self.octets_at(12)).into())
    }

    /// The target of a neighbour's message or a redirect.
    pub fn target_addr(&self) -> Ipv6Address {
        self.octets_at::<16>(8).into()
    }

    /// What a neighbour says of its advertisement.
    pub fn neighbor_flags(&self) -> NdiscNeighborFlags {
        NdiscNeighborFlags::from_bits_truncate(self.u8_at(4))
    }

    /// The destination that a redirect is about.
    pub fn dest_addr(&self) -> Ipv6Address {
        self.octets_at::<16>(24).into()
    }
}

impl<T: AsRef<[u8]> + AsMut<[u8]>> Icmpv6Packet<T> {
    /// Sets the hop limit that a router advises.
    pub fn set_current_hop_limit(&mut self, value: u8) {
        self.put(4, &[value]);
    }

    /// Sets what a router says of itself.
    pub fn set_router_flags(&mut self, value: NdiscRouterFlags) {
        self.put(5, &[value.bits()]);
    }

    /// Sets how long a router is one for other networks, in whole seconds, of 16 bits.
    pub fn set_router_lifetime(&mut self, value: Duration) {
        self.put(6, &(value.secs() as u16).to_be_bytes());
    }

    /// Sets how long a neighbour counts as reachable, in whole milliseconds, of 32 bits.
    pub fn set_reachable_time(&mut self, value: Duration) {
        self.put(8, &(value.total_millis() as u32).to_be_bytes());
    }

    /// Sets how far solicitations are apart, in whole milliseconds, of 32 bits.
    pub fn set_retrans_time(&mut self, value: Duration) {
        self.put(12, &(value.total_millis() as u32).to_be_bytes());
    }

    /// Sets the target.
    pub fn set_target_addr(&mut self, value: Ipv6Address) {
        self.put(8, &value.octets());
    }

    /// Sets what a neighbour says of its advertisement.
    pub fn set_neighbor_flags(&mut self, value: NdiscNeighborFlags) {
        self.put(4, &[value.bits()]);
    }

    /// Sets the destination that a redirect is about.
    pub fn set_dest_addr(&mut self, value: Ipv6Address) {
        self.put(24, &value.octets());
    }
}

/// The values of a message of neighbour discovery.
#[derive(Clone, Copy, Debug, PartialEq, Eq)]
pub enum NdiscRepr<'a> {
    /// Asks routers to tell of themselves.
    RouterSolicit {
        /// The sender's link-layer address.
        lladdr: Option<RawHardwareAddress>,
    },
    /// A router tells of itself.
    RouterAdvert {
        /// The hop limit that it advises; 0 for none.
        hop_limit: u8,
        /// What it says of itself.
        flags: NdiscRouterFlags,
        /// How long it is a router for other networks; 0 for not at all.
        router_lifetime: Duration,
        /// How long a neighbour counts as reachable; 0 where nothing is said.
        reachable_time: Duration,
        /// How far solicitations are apart; 0 where nothing is said.
        retrans_time: Duration,
        /// The router's link-layer address.
        lladdr: Option<RawHardwareAddress>,
        /// The longest packet of the link.
        mtu: Option<u32>,
        /// A prefix of the link.
        prefix_info: Option<NdiscPrefixInformation>,
    },
    /// Asks for a link-layer address.
    NeighborSolicit {
        /// Whose.
        target_addr: Ipv6Address,
        /// The sender's own.
        lladdr: Option<RawHardwareAddress>,
    },
    /// Tells a link-layer address.
    NeighborAdvert {
        /// What is said of it.
        flags: NdiscNeighborFlags,
        /// Whose it is.
        target_addr: Ipv6Address,
        /// The address.
        lladdr: Option<RawHardwareAddress>,
    },
    /// Another router is nearer, or the destination itself is on the link.
    Redirect {
        /// The better next hop.
        target_addr: Ipv6Address,
        /// The destination.
        dest_addr: Ipv6Address,
        /// The next hop's link-layer address.
        lladdr: Option<RawHardwareAddress>,
        /// The packet that this is about.
        redirected_hdr: Option<NdiscRedirectedHeader<'a>>,
    },
}

/// The options behind a message, of which the last one of each kind counts.
#[derive(Default)]
struct Options<'a> {
    source: Option<RawHardwareAddress>,
    target: Option<RawHardwareAddress>,
    mtu: Option<u32>,
    prefix: Option<NdiscPrefixInformation>,
    redirected: Option<NdiscRedirectedHeader<'a>>,
}

/// Reads them all. Those that aren't known are skipped (RFC 4861 4.6).
fn options_in(mut octets: &[u8]) -> Result<Options<'_>> {
    let mut options = Options::default();
    while !octets.is_empty() {
        let option = NdiscOptionRepr::parse(&NdiscOption::new_checked(octets)?)?;
        match option {
            NdiscOptionRepr::SourceLinkLayerAddr(address) => options.source = Some(address),
            NdiscOptionRepr::TargetLinkLayerAddr(address) => options.target = Some(address),
            NdiscOptionRepr::PrefixInformation(prefix) => options.prefix = Some(prefix),
            NdiscOptionRepr::RedirectedHeader(header) => options.redirected = Some(header),
            NdiscOptionRepr::Mtu(mtu) => options.mtu = Some(mtu),
            NdiscOptionRepr::Unknown { .. } => {}
        }
        octets = &octets[8 * usize::from(octets[1])..];
    }
    Ok(options)
}

const fn lladdr_len(lladdr: &Option<RawHardwareAddress>) -> usize {
    if lladdr.is_some() { LLADDR_LEN } else { 0 }
}

impl<'a> NdiscRepr<'a> {
    /// Reads a message. Its checksum isn't verified: [`Icmpv6Repr::parse`](super::Icmpv6Repr::parse) does that. Nor is the
    /// packet's hop limit, which has to be 255 (RFC 4861 6.1, 7.1, 8.1).
    ///
    /// # Errors
    /// [`Error`] if it isn't whole, is none of these messages, or an option in it is malformed.
    pub fn parse<T: AsRef<[u8]> + ?Sized>(packet: &Icmpv6Packet<&'a T>) -> Result<NdiscRepr<'a>> {
        packet.check_len()?;
        let kind = packet.msg_type();
        if !kind.is_ndisc() {
            return Err(Error);
        }
        let options = options_in(packet.payload())?;
        Ok(match kind {
            Icmpv6Message::RouterSolicit => NdiscRepr::RouterSolicit { lladdr: options.source },
            Icmpv6Message::RouterAdvert => NdiscRepr::RouterAdvert {
                hop_limit: packet.current_hop_limit(),
                flags: packet.router_flags(),
                router_lifetime: packet.router_lifetime(),
                reachable_time: packet.reachable_time(),
                retrans_time: packet.retrans_time(),
                lladdr: options.source,
                mtu: options.mtu,
                prefix_info: options.prefix,
            },
            Icmpv6Message::NeighborSolicit => {
                NdiscRepr::NeighborSolicit { target_addr: packet.target_addr(), lladdr: options.source }
            }
            Icmpv6Message::NeighborAdvert => NdiscRepr::NeighborAdvert {
                flags: packet.neighbor_flags(),
                target_addr: packet.target_addr(),
                lladdr: options.target,
            },
            _ => NdiscRepr::Redirect {
                target_addr: packet.target_addr(),
                dest_addr: packet.dest_addr(),
                lladdr: options.target,
                redirected_hdr: options.redirected,
            },
        })
    }

    /// The octets that `emit` writes.
    pub const fn buffer_len(&self) -> usize {
        match self {
            NdiscRepr::RouterSolicit { lladdr } => 8 + lladdr_len(lladdr),
            NdiscRepr::RouterAdvert { lladdr, mtu, prefix_info, .. } => {
                let mtu = if mtu.is_some() { MTU_LEN } else { 0 };
                let prefix = if prefix_info.is_some() { PREFIX_LEN } else { 0 };
                16 + lladdr_len(lladdr) + mtu + prefix
            }
            NdiscRepr::NeighborSolicit { lladdr, .. } | NdiscRepr::NeighborAdvert { lladdr, .. } => {
                24 + lladdr_len(lladdr)
            }
            NdiscRepr::Redirect { lladdr, redirected_hdr, .. } => {
                let redirected = match redirected_hdr {
                    Some(told) => NdiscOptionRepr::RedirectedHeader(*told).buffer_len(),
                    None => 0,
                };
                40 + lladdr_len(lladdr) + redirected
            }
        }
    }

    /// The message's type.
    pub(super) const fn kind(&self) -> Icmpv6Message {
        match self {
            NdiscRepr::RouterSolicit { .. } => Icmpv6Message::RouterSolicit,
            NdiscRepr::RouterAdvert { .. } => Icmpv6Message::RouterAdvert,
            NdiscRepr::NeighborSolicit { .. } => Icmpv6Message::NeighborSolicit,
            NdiscRepr::NeighborAdvert { .. } => Icmpv6Message::NeighborAdvert,
            NdiscRepr::Redirect { .. } => Icmpv6Message::Redirect,
        }
    }

    /// Writes the message but for its checksum: [`Icmpv6Repr::emit`](super::Icmpv6Repr::emit) computes that. What nothing
    /// is said by is 0. Options are written in the order of their types' names here.
    ///
    /// # Panics
    /// If there are fewer octets.
    pub fn emit<T: AsRef<[u8]> + AsMut<[u8]>>(&self, packet: &mut Icmpv6Packet<T>) {
        packet.set_msg_type(self.kind());
        packet.set_msg_code(0);
        packet.put(4, &[0; 4]);
        let mut options = [None; 3];
        match *self {
            NdiscRepr::RouterSolicit { lladdr } => options[0] = lladdr.map(NdiscOptionRepr::SourceLinkLayerAddr),
            NdiscRepr::RouterAdvert {
                hop_limit,
                flags,
                router_lifetime,
                reachable_time,
                retrans_time,
                lladdr,
                mtu,
                prefix_info,
            } => {
                packet.set_current_hop_limit(hop_limit);
                packet.set_router_flags(flags);
                packet.set_router_lifetime(router_lifetime);
                packet.set_reachable_time(reachable_time);
                packet.set_retrans_time(retrans_time);
                options = [
                    lladdr.map(NdiscOptionRepr::SourceLinkLayerAddr),
                    mtu.map(NdiscOptionRepr::Mtu),
                    prefix_info.map(NdiscOptionRepr::PrefixInformation),
                ];
            }
            NdiscRepr::NeighborSolicit { target_addr, lladdr } => {
                packet.set_target_addr(target_addr);
                options[0] = lladdr.map(NdiscOptionRepr::SourceLinkLayerAddr);
            }
            NdiscRepr::NeighborAdvert { flags, target_addr, lladdr } => {
                packet.set_neighbor_flags(flags);
                packet.set_target_addr(target_addr);
                options[0] = lladdr.map(NdiscOptionRepr::TargetLinkLayerAddr);
            }
            NdiscRepr::Redirect { target_addr, dest_addr, lladdr, redirected_hdr } => {
                packet.set_target_addr(target_addr);
                packet.set_dest_addr(dest_addr);
                options[0] = lladdr.map(NdiscOptionRepr::TargetLinkLayerAddr);
                options[1] = redirected_hdr.map(NdiscOptionRepr::RedirectedHeader);
            }
        }
        let mut octets = packet.payload_mut();
        for option in options.into_iter().flatten() {
            let (head, rest) = octets.split_at_mut(option.buffer_len());
            option.emit(&mut NdiscOption::new_unchecked(head));
            octets = rest;
        }
    }
}

impl fmt::Display for NdiscRepr<'_> {
    fn fmt(&self, f: &mut fmt::Formatter<'_>) -> fmt::Result {
        match self {
            NdiscRepr::RouterSolicit { .. } => f.write_str("NDISC router solicitation"),
            NdiscRepr::RouterAdvert { router_lifetime, .. } => {
                write!(f, "NDISC router advertisement lifetime={router_lifetime}")
            }
            NdiscRepr::NeighborSolicit { target_addr, .. } => {
                write!(f, "NDISC neighbor solicitation target={target_addr}")
            }
            NdiscRepr::NeighborAdvert { target_addr, lladdr, .. } => {
                write!(f, "NDISC neighbor advertisement target={target_addr}")?;
                lladdr.map_or(Ok(()), |address| write!(f, " lladdr={address}"))
            }
            NdiscRepr::Redirect { target_addr, dest_addr, .. } => {
                write!(f, "NDISC redirect target={target_addr} dest={dest_addr}")
            }
        }
    }
}
