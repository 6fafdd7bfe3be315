//! ICMP (RFC 792).
use super::forms::{folded, sum};
use super::{Error, Ipv4Packet, Ipv4Repr, Result};
use crate::checksum::ChecksumCapabilities;
use core::fmt;

enum_with_unknown! {
    /// The type of a message.
    pub enum Icmpv4Message(u8) {
        /// The answer to an echo request.
        EchoReply = 0,
        /// A packet couldn't be delivered.
        DstUnreachable = 3,
        /// Another router is nearer.
        Redirect = 5,
        /// Asks for an echo.
        EchoRequest = 8,
        /// A router tells of itself (RFC 1256).
        RouterAdvert = 9,
        /// Asks routers for that.
        RouterSolicit = 10,
        /// A packet, or the reassembly of one, took too long.
        TimeExceeded = 11,
        /// A header has something wrong.
        ParamProblem = 12,
        /// Asks for the time.
        Timestamp = 13,
        /// Tells the time.
        TimestampReply = 14,
    }
}

enum_with_unknown! {
    /// Why a packet couldn't be delivered (RFC 792, RFC 1122 3.2.2.1, RFC 1812 5.2.7.1).
    pub enum Icmpv4DstUnreachable(u8) {
        /// No way to the network.
        NetUnreachable = 0,
        /// No way to the host.
        HostUnreachable = 1,
        /// The host doesn't take the protocol.
        ProtoUnreachable = 2,
        /// Nobody is at the port.
        PortUnreachable = 3,
        /// It is too long, and must not be cut.
        FragRequired = 4,
        /// The way that its source set isn't there.
        SrcRouteFailed = 5,
        /// The network isn't known.
        DstNetUnknown = 6,
        /// The host isn't known.
        DstHostUnknown = 7,
        /// The source's host is isolated.
        SrcHostIsolated = 8,
        /// The network is prohibited.
        NetProhibited = 9,
        /// The host is prohibited.
        HostProhibited = 10,
        /// No way to the network for this type of service.
        NetUnreachToS = 11,
        /// No way to the host for this type of service.
        HostUnreachToS = 12,
        /// A filter prohibits it.
        CommProhibited = 13,
        /// Its precedence isn't permitted.
        HostPrecedViol = 14,
        /// Its precedence is too low.
        PrecedCutoff = 15,
    }
}

enum_with_unknown! {
    /// For what another router is nearer.
    pub enum Icmpv4Redirect(u8) {
        /// For the network.
        Net = 0,
        /// For the host.
        Host = 1,
        /// For the network and type of service.
        NetToS = 2,
        /// For the host and type of service.
        HostToS = 3,
    }
}

enum_with_unknown! {
    /// What took too long.
    pub enum Icmpv4TimeExceeded(u8) {
        /// The packet: its time to live is over.
        TtlExpired = 0,
        /// Its reassembly.
        FragExpired = 1,
    }
}

enum_with_unknown! {
    /// What is wrong with a header.
    pub enum Icmpv4ParamProblem(u8) {
        /// The octet that is pointed at.
        AtPointer = 0,
        /// An option is missing.
        MissingOption = 1,
        /// A length.
        BadLength = 2,
    }
}

const HEADER_LEN: usize = 8;

view! {
    /// A message of ICMP.
    Icmpv4Packet
}

impl<T: AsRef<[u8]>> Icmpv4Packet<T> {
    /// Tests that the header is there.
    ///
    /// # Errors
    /// [`Error`] if there are fewer than 8 octets.
    pub fn check_len(&self) -> Result<()> {
        if self.buffer.as_ref().len() < HEADER_LEN { Err(Error) } else { Ok(()) }
    }

    /// The type.
    pub fn msg_type(&self) -> Icmpv4Message {
        self.u8_at(0).into()
    }

    /// The code.
    pub fn msg_code(&self) -> u8 {
        self.u8_at(1)
    }

    /// The checksum.
    pub fn checksum(&self) -> u16 {
        self.u16_at(2)
    }

    /// The identifier of an echo message.
    pub fn echo_ident(&self) -> u16 {
        self.u16_at(4)
    }

    /// The sequence number of an echo message.
    pub fn echo_seq_no(&self) -> u16 {
        self.u16_at(6)
    }

    /// The octets of its header.
    pub fn header_len(&self) -> usize {
        HEADER_LEN
    }

    /// Whether its checksum is that of the message.
    pub fn verify_checksum(&self) -> bool {
        sum(self.buffer.as_ref()) == 0xffff
    }
}

impl<'a, T: AsRef<[u8]> + ?Sized> Icmpv4Packet<&'a T> {
    /// What is behind its header.
    pub fn data(&self) -> &'a [u8] {
        &self.buffer.as_ref()[HEADER_LEN..]
    }
}

impl<T: AsRef<[u8]> + AsMut<[u8]>> Icmpv4Packet<T> {
    /// Sets the type.
    pub fn set_msg_type(&mut self, value: Icmpv4Message) {
        self.put(0, &[value.into()]);
    }

    /// Sets the code.
    pub fn set_msg_code(&mut self, value: u8) {
        self.put(1, &[value]);
    }

    /// Sets the checksum.
    pub fn set_checksum(&mut self, value: u16) {
        self.put(2, &value.to_be_bytes());
    }

    /// Sets the identifier of an echo message.
    pub fn set_echo_ident(&mut self, value: u16) {
        self.put(4, &value.to_be_bytes());
    }

    /// Sets the sequence number of an echo message.
    pub fn set_echo_seq_no(&mut self, value: u16) {
        self.put(6, &value.to_be_bytes());
    }

    /// Computes the checksum, and sets it.
    pub fn fill_checksum(&mut self) {
        self.set_checksum(0);
        let sum = folded(sum(self.buffer.as_ref()));
        self.set_checksum(!(sum as u16));
    }

    /// What is behind its header, to be written.
    pub fn data_mut(&mut self) -> &mut [u8] {
        &mut self.buffer.as_mut()[HEADER_LEN..]
    }
}

/// The values of a message of ICMP.
#[derive(Clone, Copy, Debug, PartialEq, Eq)]
#[non_exhaustive]
pub enum Icmpv4Repr<'a> {
    /// Asks for an echo.
    EchoRequest {
        /// The identifier.
        ident: u16,
        /// The sequence number.
        seq_no: u16,
        /// What is to come back.
        data: &'a [u8],
    },
    /// The answer to an echo request.
    EchoReply {
        /// The request's identifier.
        ident: u16,
        /// The request's sequence number.
        seq_no: u16,
        /// The request's data.
        data: &'a [u8],
    },
    /// A packet couldn't be delivered.
    DstUnreachable {
        /// Why.
        reason: Icmpv4DstUnreachable,
        /// The packet's header.
        header: Ipv4Repr,
        /// What comes behind that, 8 octets or more.
        data: &'a [u8],
    },
    /// A packet, or the reassembly of one, took too long.
    TimeExceeded {
        /// Which.
        reason: Icmpv4TimeExceeded,
        /// The packet's header.
        header: Ipv4Repr,
        /// What comes behind that, 8 octets or more.
        data: &'a [u8],
    },
}

/// The packet that an error is about: its header, and of what is behind it as much as the message has.
fn told_of(data: &[u8]) -> Result<(Ipv4Repr, &[u8])> {
    if data.len() < super::IPV4_HEADER_LEN {
        return Err(Error);
    }
    let packet = Ipv4Packet::new_unchecked(data);
    let header_len = usize::from(packet.header_len());
    // RFC 792: at least its first 64 bits.
    let rest = data.get(header_len..).filter(|rest| rest.len() >= 8).ok_or(Error)?;
    if packet.version() != 4 || header_len < super::IPV4_HEADER_LEN {
        return Err(Error);
    }
    let header = Ipv4Repr {
        src_addr: packet.src_addr(),
        dst_addr: packet.dst_addr(),
        next_header: packet.next_header(),
        payload_len: rest.len(),
        hop_limit: packet.hop_limit(),
    };
    Ok((header, rest))
}

impl<'a> Icmpv4Repr<'a> {
    /// Reads a message.
    ///
    /// # Errors
    /// [`Error`] if it has no header, a wrong checksum that is to be verified, another type or code than these four have, or
    /// is an error that doesn't tell the packet's header and eight octets behind it.
    pub fn parse<T: AsRef<[u8]> + ?Sized>(
        packet: &Icmpv4Packet<&'a T>,
        checksum_caps: &ChecksumCapabilities,
    ) -> Result<Icmpv4Repr<'a>> {
        packet.check_len()?;
        if checksum_caps.icmpv4.rx() && !packet.verify_checksum() {
            return Err(Error);
        }
        let (ident, seq_no, data) = (packet.echo_ident(), packet.echo_seq_no(), packet.data());
        match (packet.msg_type(), packet.msg_code()) {
            (Icmpv4Message::EchoRequest, 0) => Ok(Icmpv4Repr::EchoRequest { ident, seq_no, data }),
            (Icmpv4Message::EchoReply, 0) => Ok(Icmpv4Repr::EchoReply { ident, seq_no, data }),
            (Icmpv4Message::DstUnreachable, code) => {
                let (header, data) = told_of(data)?;
                Ok(Icmpv4Repr::DstUnreachable { reason: code.into(), header, data })
            }
            (Icmpv4Message::TimeExceeded, code) => {
                let (header, data) = told_of(data)?;
                Ok(Icmpv4Repr::TimeExceeded { reason: code.into(), header, data })
            }
            _ => Err(Error),
        }
    }

    /// The octets that `emit` writes.
    pub const fn buffer_len(&self) -> usize {
        match self {
            Icmpv4Repr::EchoRequest { data, .. } | Icmpv4Repr::EchoReply { data, .. } => HEADER_LEN + data.len(),
            Icmpv4Repr::DstUnreachable { header, data, .. } | Icmpv4Repr::TimeExceeded { header, data, .. } => {
                HEADER_LEN + header.buffer_len() + data.len()
            }
        }
    }

    /// Writes the message. The checksum, which is over all octets of the view, is 0 unless it is to be computed.
    ///
    /// # Panics
    /// If there are fewer octets.
    pub fn emit<T: AsRef<[u8]> + AsMut<[u8]>>(
        &self,
        packet: &mut Icmpv4Packet<T>,
        checksum_caps: &ChecksumCapabilities,
    ) {
        let (kind, code) = match self {
            Icmpv4Repr::EchoRequest { .. } => (Icmpv4Message::EchoRequest, 0),
            Icmpv4Repr::EchoReply { .. } => (Icmpv4Message::EchoReply, 0),
            Icmpv4Repr::DstUnreachable { reason, .. } => (Icmpv4Message::DstUnreachable, u8::from(*reason)),
            Icmpv4Repr::TimeExceeded { reason, .. } => (Icmpv4Message::TimeExceeded, u8::from(*reason)),
        };
        packet.set_msg_type(kind);
        packet.set_msg_code(code);
        match *self {
            Icmpv4Repr::EchoRequest { ident, seq_no, data } | Icmpv4Repr::EchoReply { ident, seq_no, data } => {
                packet.set_echo_ident(ident);
                packet.set_echo_seq_no(seq_no);
                packet.data_mut()[..data.len()].copy_from_slice(data);
            }
            Icmpv4Repr::DstUnreachable { header, data, .. } | Icmpv4Repr::TimeExceeded { header, data, .. } => {
                packet.set_echo_ident(0);
                packet.set_echo_seq_no(0);
                let (head, rest) = packet.data_mut().split_at_mut(header.buffer_len());
                header.emit(&mut Ipv4Packet::new_unchecked(head), checksum_caps);
                rest[..data.len()].copy_from_slice(data);
            }
        }
        if checksum_caps.icmpv4.tx() { packet.fill_checksum() } else { packet.set_checksum(0) }
    }
}

impl fmt::Display for Icmpv4Repr<'_> {
    fn fmt(&self, f: &mut fmt::Formatter<'_>) -> fmt::Result {
        match self {
            Icmpv4Repr::EchoRequest { ident, seq_no, data } => {
                write!(f, "ICMPv4 echo request id={ident} seq={seq_no} len={}", data.len())
            }
            Icmpv4Repr::EchoReply { ident, seq_no, data } => {
                write!(f, "ICMPv4 echo reply id={ident} seq={seq_no} len={}", data.len())
            }
            Icmpv4Repr::DstUnreachable { reason, .. } => write!(f, "ICMPv4 destination unreachable ({reason:?})"),
            Icmpv4Repr::TimeExceeded { reason, .. } => write!(f, "ICMPv4 time exceeded ({reason:?})"),
        }
    }
}
