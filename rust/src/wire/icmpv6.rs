//! ICMPv6 (RFC 4443).
use super::forms::{folded, pseudo_header, sum};
use super::{
    Error, IPV6_HEADER_LEN, IpAddress, IpProtocol, Ipv6Address, Ipv6Packet, Ipv6Repr, MldRepr, NdiscRepr, Result,
};
use crate::checksum::ChecksumCapabilities;
use core::fmt;

enum_with_unknown! {
    /// The type of a message.
    pub enum Icmpv6Message(u8) {
        /// A packet couldn't be delivered.
        DstUnreachable = 1,
        /// A packet is too long for a link.
        PktTooBig = 2,
        /// A packet, or the reassembly of one, took too long.
        TimeExceeded = 3,
        /// A header has something wrong.
        ParamProblem = 4,
        /// Asks for an echo.
        EchoRequest = 128,
        /// The answer to an echo request.
        EchoReply = 129,
        /// A router asks for groups (RFC 3810).
        MldQuery = 130,
        /// Asks routers to tell of themselves (RFC 4861).
        RouterSolicit = 133,
        /// A router tells of itself.
        RouterAdvert = 134,
        /// Asks for a hardware address.
        NeighborSolicit = 135,
        /// Tells a hardware address.
        NeighborAdvert = 136,
        /// Another router is nearer.
        Redirect = 137,
        /// A host tells of its groups.
        MldReport = 143,
        /// A message of RPL (RFC 6550).
        RplControl = 155,
    }
}

impl Icmpv6Message {
    /// Whether it tells of an error (RFC 4443 2.1).
    pub fn is_error(&self) -> bool {
        u8::from(*self) & 0x80 == 0
    }

    /// Whether it is of neighbour discovery (RFC 4861 4).
    pub const fn is_ndisc(&self) -> bool {
        matches!(
            self,
            Icmpv6Message::RouterSolicit
                | Icmpv6Message::RouterAdvert
                | Icmpv6Message::NeighborSolicit
                | Icmpv6Message::NeighborAdvert
                | Icmpv6Message::Redirect
        )
    }

    /// Whether it is of multicast listener discovery (RFC 3810 5).
    pub const fn is_mld(&self) -> bool {
        matches!(self, Icmpv6Message::MldQuery | Icmpv6Message::MldReport)
    }
}

enum_with_unknown! {
    /// Why a packet couldn't be delivered (RFC 4443 3.1).
    pub enum Icmpv6DstUnreachable(u8) {
        /// No route.
        NoRoute = 0,
        /// It is prohibited.
        AdminProhibit = 1,
        /// It is beyond the scope of its source.
        BeyondScope = 2,
        /// The address can't be reached.
        AddrUnreachable = 3,
        /// Nobody is at the port.
        PortUnreachable = 4,
        /// The source's address isn't permitted.
        FailedPolicy = 5,
        /// The route rejects it.
        RejectRoute = 6,
    }
}

enum_with_unknown! {
    /// What took too long (RFC 4443 3.3).
    pub enum Icmpv6TimeExceeded(u8) {
        /// The packet: its hop limit is used up.
        HopLimitExceeded = 0,
        /// Its reassembly.
        FragReassemExceeded = 1,
    }
}

enum_with_unknown! {
    /// What is wrong with a header (RFC 4443 3.4).
    pub enum Icmpv6ParamProblem(u8) {
        /// A field.
        ErroneousHdrField = 0,
        /// The next header isn't known.
        UnrecognizedNxtHdr = 1,
        /// An option isn't known.
        UnrecognizedOption = 2,
    }
}

const HEADER_LEN: usize = 8;

view! {
    /// A message of ICMPv6.
    Icmpv6Packet
}

impl<T: AsRef<[u8]>> Icmpv6Packet<T> {
    /// Tests that the header is there, as its type has it.
    ///
    /// # Errors
    /// [`Error`] if there are fewer than 8 octets, or fewer than [`header_len`](Icmpv6Packet::header_len).
    pub fn check_len(&self) -> Result<()> {
        let len = self.buffer.as_ref().len();
        if len < HEADER_LEN || len < self.header_len() { Err(Error) } else { Ok(()) }
    }

    /// The type.
    pub fn msg_type(&self) -> Icmpv6Message {
        self.u8_at(0).into()
    }

    /// The code.
    pub fn msg_code(&self) -> u8 {
        self.u8_at(1)
    }

    /// The checksum.
    pub fn checksum(&self) -> u16 {
        self.u16_at(2)
    }

    /// The identifier of an echo message.
    pub fn echo_ident(&self) -> u16 {
        self.u16_at(4)
    }

    /// The sequence number of an echo message.
    pub fn echo_seq_no(&self) -> u16 {
        self.u16_at(6)
    }

    /// The longest packet of the link, in a message that one was too long.
    pub fn pkt_too_big_mtu(&self) -> u32 {
        u32::from_be_bytes(self.octets_at(4))
    }

    /// Where in the packet something is wrong.
    pub fn param_problem_ptr(&self) -> u32 {
        u32::from_be_bytes(self.octets_at(4))
    }

    /// The octets of its header: 8, or what a message of neighbour discovery (RFC 4861 4) or of listener discovery (RFC
    /// 3810 5) has before its options, sources or records.
    pub fn header_len(&self) -> usize {
        match self.msg_type() {
            Icmpv6Message::RouterAdvert => 16,
            Icmpv6Message::NeighborSolicit | Icmpv6Message::NeighborAdvert => 24,
            Icmpv6Message::Redirect => 40,
            Icmpv6Message::MldQuery => 28,
            _ => HEADER_LEN,
        }
    }

    /// Whether its checksum is that of the message and its pseudo-header.
    pub fn verify_checksum(&self, src_addr: &Ipv6Address, dst_addr: &Ipv6Address) -> bool {
        self.sum(src_addr, dst_addr) == 0xffff
    }

    fn sum(&self, src_addr: &Ipv6Address, dst_addr: &Ipv6Address) -> u32 {
        let octets = self.buffer.as_ref();
        let (src_addr, dst_addr) = (IpAddress::Ipv6(*src_addr), IpAddress::Ipv6(*dst_addr));
        folded(pseudo_header(&src_addr, &dst_addr, IpProtocol::Icmpv6.into(), octets.len()) + sum(octets))
    }
}

impl<'a, T: AsRef<[u8]> + ?Sized> Icmpv6Packet<&'a T> {
    /// What is behind its header.
    pub fn payload(&self) -> &'a [u8] {
        &self.buffer.as_ref()[self.header_len()..]
    }
}

impl<T: AsRef<[u8]> + AsMut<[u8]>> Icmpv6Packet<T> {
    /// Sets the type.
    pub fn set_msg_type(&mut self, value: Icmpv6Message) {
        self.put(0, &[value.into()]);
    }

    /// Sets the code.
    pub fn set_msg_code(&mut self, value: u8) {
        self.put(1, &[value]);
    }

    /// Sets the checksum.
    pub fn set_checksum(&mut self, value: u16) {
        self.put(2, &value.to_be_bytes());
    }

    /// Sets the identifier of an echo message.
    pub fn set_echo_ident(&mut self, value: u16) {
        self.put(4, &value.to_be_bytes());
    }

    /// Sets the sequence number of an echo message.
    pub fn set_echo_seq_no(&mut self, value: u16) {
        self.put(6, &value.to_be_bytes());
    }

    /// Sets the longest packet of the link.
    pub fn set_pkt_too_big_mtu(&mut self, value: u32) {
        self.put(4, &value.to_be_bytes());
    }

    /// Sets where in the packet something is wrong.
    pub fn set_param_problem_ptr(&mut self, value: u32) {
        self.put(4, &value.to_be_bytes());
    }

    /// Computes the checksum, and sets it.
    pub fn fill_checksum(&mut self, src_addr: &Ipv6Address, dst_addr: &Ipv6Address) {
        self.set_checksum(0);
        let sum = self.sum(src_addr, dst_addr);
        self.set_checksum(!(sum as u16));
    }

    /// What is behind its header, to be written.
    pub fn payload_mut(&mut self) -> &mut [u8] {
        let header_len = self.header_len();
        &mut self.buffer.as_mut()[header_len..]
    }
}

/// The values of a message of ICMPv6.
#[derive(Clone, Copy, Debug, PartialEq, Eq)]
#[non_exhaustive]
pub enum Icmpv6Repr<'a> {
    /// A packet couldn't be delivered.
    DstUnreachable {
        /// Why.
        reason: Icmpv6DstUnreachable,
        /// The packet's header.
        header: Ipv6Repr,
        /// What comes behind that.
        data: &'a [u8],
    },
    /// A packet is too long for a link.
    PktTooBig {
        /// The longest packet of the link.
        mtu: u32,
        /// The packet's header.
        header: Ipv6Repr,
        /// What comes behind that.
        data: &'a [u8],
    },
    /// A packet, or the reassembly of one, took too long.
    TimeExceeded {
        /// Which.
        reason: Icmpv6TimeExceeded,
        /// The packet's header.
        header: Ipv6Repr,
        /// What comes behind that.
        data: &'a [u8],
    },
    /// A header has something wrong.
    ParamProblem {
        /// What.
        reason: Icmpv6ParamProblem,
        /// Where in the packet.
        pointer: u32,
        /// The packet's header.
        header: Ipv6Repr,
        /// What comes behind that.
        data: &'a [u8],
    },
    /// Asks for an echo.
    EchoRequest {
        /// The identifier.
        ident: u16,
        /// The sequence number.
        seq_no: u16,
        /// What is to come back.
        data: &'a [u8],
    },
    /// The answer to an echo request.
    EchoReply {
        /// The request's identifier.
        ident: u16,
        /// The request's sequence number.
        seq_no: u16,
        /// The request's data.
        data: &'a [u8],
    },
    /// A message of neighbour discovery.
    Ndisc(NdiscRepr<'a>),
    /// A message of listener discovery.
    Mld(MldRepr<'a>),
}

/// The packet that an error is about: its header, and of what is behind it as much as the message has.
fn told_of(data: &[u8]) -> Result<(Ipv6Repr, &[u8])> {
    let rest = data.get(IPV6_HEADER_LEN..).ok_or(Error)?;
    let packet = Ipv6Packet::new_unchecked(data);
    if packet.version() != 6 {
        return Err(Error);
    }
    let header = Ipv6Repr {
        src_addr: packet.src_addr(),
        dst_addr: packet.dst_addr(),
        next_header: packet.next_header(),
        payload_len: usize::from(packet.payload_len()),
        hop_limit: packet.hop_limit(),
    };
    Ok((header, rest))
}

impl<'a> Icmpv6Repr<'a> {
    /// Reads a message.
    ///
    /// # Errors
    /// [`Error`] if it has no header, a wrong checksum that is to be verified, another type than these, a code other than 0
    /// where it is no error, or if an error doesn't tell the packet's header. And those of [`NdiscRepr::parse`] and
    /// [`MldRepr::parse`].
    pub fn parse<T: AsRef<[u8]> + ?Sized>(
        src_addr: &Ipv6Address,
        dst_addr: &Ipv6Address,
        packet: &Icmpv6Packet<&'a T>,
        checksum_caps: &ChecksumCapabilities,
    ) -> Result<Icmpv6Repr<'a>> {
        packet.check_len()?;
        if checksum_caps.icmpv6.rx() && !packet.verify_checksum(src_addr, dst_addr) {
            return Err(Error);
        }
        let (ident, seq_no, data) = (packet.echo_ident(), packet.echo_seq_no(), packet.payload());
        match (packet.msg_type(), packet.msg_code()) {
            (kind, 0) if kind.is_ndisc() => Ok(Icmpv6Repr::Ndisc(NdiscRepr::parse(packet)?)),
            (kind, 0) if kind.is_mld() => Ok(Icmpv6Repr::Mld(MldRepr::parse(packet)?)),
            (Icmpv6Message::EchoRequest, 0) => Ok(Icmpv6Repr::EchoRequest { ident, seq_no, data }),
            (Icmpv6Message::EchoReply, 0) => Ok(Icmpv6Repr::EchoReply { ident, seq_no, data }),
            (Icmpv6Message::DstUnreachable, code) => {
                let (header, data) = told_of(data)?;
                Ok(Icmpv6Repr::DstUnreachable { reason: code.into(), header, data })
            }
            (Icmpv6Message::PktTooBig, 0) => {
                let (header, data) = told_of(data)?;
                Ok(Icmpv6Repr::PktTooBig { mtu: packet.pkt_too_big_mtu(), header, data })
            }
            (Icmpv6Message::TimeExceeded, code) => {
                let (header, data) = told_of(data)?;
                Ok(Icmpv6Repr::TimeExceeded { reason: code.into(), header, data })
            }
            (Icmpv6Message::ParamProblem, code) => {
                let (header, data) = told_of(data)?;
                Ok(Icmpv6Repr::ParamProblem { reason: code.into(), pointer: packet.param_problem_ptr(), header, data })
            }
            _ => Err(Error),
        }
    }

    /// The octets that `emit` writes.
    pub const fn buffer_len(&self) -> usize {
        match self {
            Icmpv6Repr::EchoRequest { data, .. } | Icmpv6Repr::EchoReply { data, .. } => HEADER_LEN + data.len(),
            Icmpv6Repr::DstUnreachable { header, data, .. }
            | Icmpv6Repr::PktTooBig { header, data, .. }
            | Icmpv6Repr::TimeExceeded { header, data, .. }
            | Icmpv6Repr::ParamProblem { header, data, .. } => HEADER_LEN + header.buffer_len() + data.len(),
            Icmpv6Repr::Ndisc(message) => message.buffer_len(),
            Icmpv6Repr::Mld(message) => message.buffer_len(),
        }
    }

    /// Type, code, and the four octets behind the checksum, of an echo message or an error.
    fn head(&self) -> (Icmpv6Message, u8, u32) {
        match *self {
            Icmpv6Repr::Ndisc(message) => (message.kind(), 0, 0),
            Icmpv6Repr::Mld(MldRepr::Query { .. }) => (Icmpv6Message::MldQuery, 0, 0),
            Icmpv6Repr::Mld(_) => (Icmpv6Message::MldReport, 0, 0),
            Icmpv6Repr::DstUnreachable { reason, .. } => (Icmpv6Message::DstUnreachable, reason.into(), 0),
            Icmpv6Repr::PktTooBig { mtu, .. } => (Icmpv6Message::PktTooBig, 0, mtu),
            Icmpv6Repr::TimeExceeded { reason, .. } => (Icmpv6Message::TimeExceeded, reason.into(), 0),
            Icmpv6Repr::ParamProblem { reason, pointer, .. } => (Icmpv6Message::ParamProblem, reason.into(), pointer),
            Icmpv6Repr::EchoRequest { ident, seq_no, .. } => {
                (Icmpv6Message::EchoRequest, 0, u32::from(ident) << 16 | u32::from(seq_no))
            }
            Icmpv6Repr::EchoReply { ident, seq_no, .. } => {
                (Icmpv6Message::EchoReply, 0, u32::from(ident) << 16 | u32::from(seq_no))
            }
        }
    }

    /// Writes the message. The checksum, which is over all octets of the view, is 0 unless it is to be computed.
    ///
    /// # Panics
    /// If there are fewer octets.
    pub fn emit<T: AsRef<[u8]> + AsMut<[u8]>>(
        &self,
        src_addr: &Ipv6Address,
        dst_addr: &Ipv6Address,
        packet: &mut Icmpv6Packet<T>,
        checksum_caps: &ChecksumCapabilities,
    ) {
        let (kind, code, rest) = self.head();
        packet.set_msg_type(kind);
        packet.set_msg_code(code);
        packet.put(4, &rest.to_be_bytes());
        match *self {
            Icmpv6Repr::EchoRequest { data, .. } | Icmpv6Repr::EchoReply { data, .. } => {
                packet.payload_mut()[..data.len()].copy_from_slice(data);
            }
            Icmpv6Repr::DstUnreachable { header, data, .. }
            | Icmpv6Repr::PktTooBig { header, data, .. }
            | Icmpv6Repr::TimeExceeded { header, data, .. }
            | Icmpv6Repr::ParamProblem { header, data, .. } => {
                let (head, rest) = packet.payload_mut().split_at_mut(header.buffer_len());
                header.emit(&mut Ipv6Packet::new_unchecked(head));
                rest[..data.len()].copy_from_slice(data);
            }
            Icmpv6Repr::Ndisc(message) => message.emit(packet),
            Icmpv6Repr::Mld(message) => message.emit(packet),
        }
        if checksum_caps.icmpv6.tx() { packet.fill_checksum(src_addr, dst_addr) } else { packet.set_checksum(0) }
    }
}

impl fmt::Display for Icmpv6Repr<'_> {
    fn fmt(&self, f: &mut fmt::Formatter<'_>) -> fmt::Result {
        match self {
            Icmpv6Repr::Ndisc(message) => message.fmt(f),
            Icmpv6Repr::Mld(message) => message.fmt(f),
            Icmpv6Repr::EchoRequest { ident, seq_no, data } => {
                write!(f, "ICMPv6 echo request id={ident} seq={seq_no} len={}", data.len())
            }
            Icmpv6Repr::EchoReply { ident, seq_no, data } => {
                write!(f, "ICMPv6 echo reply id={ident} seq={seq_no} len={}", data.len())
            }
            Icmpv6Repr::DstUnreachable { reason, .. } => write!(f, "ICMPv6 destination unreachable ({reason:?})"),
            Icmpv6Repr::PktTooBig { mtu, .. } => write!(f, "ICMPv6 packet too big mtu={mtu}"),
            Icmpv6Repr::TimeExceeded { reason, .. } => write!(f, "ICMPv6 time exceeded ({reason:?})"),
            Icmpv6Repr::ParamProblem { reason, pointer, .. } => {
                write!(f, "ICMPv6 parameter problem ({reason:?}) at {pointer}")
            }
        }
    }
}
