//! TCP (RFC 9293, 3.1).
use super::forms::{folded, pseudo_header, sum};
use super::{Error, IpAddress, IpProtocol, Result};
use crate::checksum::ChecksumCapabilities;
use core::cmp::Ordering;
use core::fmt;
use core::ops::{Add, AddAssign, Sub};

/// What a segment of TCP does to its connection (RFC 9293, 3.1): the one of these flags that is set.
#[derive(Clone, Copy, Debug, PartialEq, Eq, Hash)]
pub enum TcpControl {
    /// None is set.
    None,
    /// What came is to be handed on.
    Psh,
    /// It begins.
    Syn,
    /// It ends in this direction.
    Fin,
    /// It is reset.
    Rst,
}

/// A sequence number of TCP, modulo 2^32 (RFC 9293, 3.4). One number is less than another if it is up to half of the
/// range before it.
#[derive(Clone, Copy, Debug, Default, PartialEq, Eq, Hash)]
pub struct TcpSeqNumber(pub i32);

impl fmt::Display for TcpSeqNumber {
    fn fmt(&self, f: &mut fmt::Formatter<'_>) -> fmt::Result {
        (self.0 as u32).fmt(f)
    }
}

impl Add<usize> for TcpSeqNumber {
    type Output = TcpSeqNumber;

    /// The number so many octets on, modulo 2^32: where smoltcp panics at more than 2^31, this does not.
    fn add(self, octets: usize) -> TcpSeqNumber {
        TcpSeqNumber(self.0.wrapping_add_unsigned(octets as u32))
    }
}

impl AddAssign<usize> for TcpSeqNumber {
    fn add_assign(&mut self, octets: usize) {
        *self = *self + octets;
    }
}

impl Sub<usize> for TcpSeqNumber {
    type Output = TcpSeqNumber;

    /// The number so many octets before, modulo 2^32.
    fn sub(self, octets: usize) -> TcpSeqNumber {
        TcpSeqNumber(self.0.wrapping_sub_unsigned(octets as u32))
    }
}

impl Sub<TcpSeqNumber> for TcpSeqNumber {
    type Output = usize;

    /// How many octets on it is from another, modulo 2^32: where smoltcp panics at a number before the other, this does
    /// not.
    fn sub(self, other: TcpSeqNumber) -> usize {
        self.0.wrapping_sub(other.0) as u32 as usize
    }
}

impl PartialOrd for TcpSeqNumber {
    fn partial_cmp(&self, other: &TcpSeqNumber) -> Option<Ordering> {
        self.0.wrapping_sub(other.0).partial_cmp(&0)
    }
}

/// The octets of a header of TCP without options.
pub const TCP_HEADER_LEN: usize = 20;

/// Two instants in a segment (RFC 7323, 3.2).
#[derive(Clone, Copy, Debug, PartialEq, Eq)]
pub struct TcpTimestampRepr {
    /// The sender's.
    pub tsval: u32,
    /// The receiver's that it saw last.
    pub tsecr: u32,
}

/// The ranges of a selective acknowledgement: at most three are read.
pub(super) type Ranges = [Option<(u32, u32)>; 3];

/// An option of a segment.
#[derive(Clone, Copy, Debug, PartialEq, Eq)]
pub enum TcpOption<'a> {
    /// No option follows (RFC 9293, 3.1).
    EndOfList,
    /// It fills the header up (RFC 9293, 3.1).
    NoOperation,
    /// How many octets a segment to the sender may carry (RFC 9293, 3.7.1).
    MaxSegmentSize(u16),
    /// How often the sender's windows are to be doubled (RFC 7323, 2.2).
    WindowScale(u8),
    /// The sender takes selective acknowledgements (RFC 2018, 2).
    SackPermitted,
    /// What came out of order (RFC 2018, 3).
    SackRange([Option<(u32, u32)>; 3]),
    /// Two instants (RFC 7323, 3.2).
    TimeStamp {
        /// The sender's.
        tsval: u32,
        /// The receiver's that it saw last.
        tsecr: u32,
    },
    /// Another one.
    Unknown {
        /// Its number.
        kind: u8,
        /// What is in it.
        data: &'a [u8],
    },
}

impl<'a> TcpOption<'a> {
    /// Reads the first option, and returns the octets behind it.
    ///
    /// # Errors
    /// [`Error`] if not all of it is there, or it has another length than its number says.
    pub fn parse(buffer: &'a [u8]) -> Result<(&'a [u8], TcpOption<'a>)> {
        let (&kind, rest) = buffer.split_first().ok_or(Error)?;
        match kind {
            0 => return Ok((rest, TcpOption::EndOfList)),
            1 => return Ok((rest, TcpOption::NoOperation)),
            _ => {}
        }
        let length = usize::from(*rest.first().ok_or(Error)?);
        let data = buffer.get(2..length).ok_or(Error)?;
        let option = match (kind, data) {
            (2, &[a, b]) => TcpOption::MaxSegmentSize(u16::from_be_bytes([a, b])),
            (3, &[shift]) => TcpOption::WindowScale(shift),
            (4, &[]) => TcpOption::SackPermitted,
            (5, ranges) if !ranges.is_empty() && ranges.len() % 8 == 0 => TcpOption::SackRange(ranges_of(ranges)),
            (8, &[a, b, c, d, e, f, g, h]) => TcpOption::TimeStamp {
                tsval: u32::from_be_bytes([a, b, c, d]),
                tsecr: u32::from_be_bytes([e, f, g, h]),
            },
            (2..=5 | 8, _) => return Err(Error),
            (kind, data) => TcpOption::Unknown { kind, data },
        };
        Ok((&buffer[length..], option))
    }

    /// The octets that `emit` writes.
    pub fn buffer_len(&self) -> usize {
        match self {
            TcpOption::EndOfList | TcpOption::NoOperation => 1,
            TcpOption::MaxSegmentSize(_) => 4,
            TcpOption::WindowScale(_) => 3,
            TcpOption::SackPermitted => 2,
            TcpOption::SackRange(ranges) => 2 + 8 * ranges.iter().flatten().count(),
            TcpOption::TimeStamp { .. } => 10,
            TcpOption::Unknown { data, .. } => 2 + data.len(),
        }
    }

    fn kind(&self) -> u8 {
        match self {
            TcpOption::EndOfList => 0,
            TcpOption::NoOperation => 1,
            TcpOption::MaxSegmentSize(_) => 2,
            TcpOption::WindowScale(_) => 3,
            TcpOption::SackPermitted => 4,
            TcpOption::SackRange(_) => 5,
            TcpOption::TimeStamp { .. } => 8,
            TcpOption::Unknown { kind, .. } => *kind,
        }
    }

    /// Writes it, and returns the octets behind.
    ///
    /// # Panics
    /// If there are fewer octets.
    pub fn emit<'b>(&self, buffer: &'b mut [u8]) -> &'b mut [u8] {
        let length = self.buffer_len();
        let (own, rest) = buffer.split_at_mut(length);
        own[0] = self.kind();
        if length > 1 {
            own[1] = length as u8;
        }
        match self {
            TcpOption::EndOfList | TcpOption::NoOperation | TcpOption::SackPermitted => {}
            TcpOption::MaxSegmentSize(size) => own[2..].copy_from_slice(&size.to_be_bytes()),
            TcpOption::WindowScale(shift) => own[2] = *shift,
            TcpOption::SackRange(ranges) => {
                for (place, (left, right)) in own[2..].chunks_exact_mut(8).zip(ranges.iter().flatten()) {
                    place[..4].copy_from_slice(&left.to_be_bytes());
                    place[4..].copy_from_slice(&right.to_be_bytes());
                }
            }
            TcpOption::TimeStamp { tsval, tsecr } => {
                own[2..6].copy_from_slice(&tsval.to_be_bytes());
                own[6..].copy_from_slice(&tsecr.to_be_bytes());
            }
            TcpOption::Unknown { data, .. } => own[2..].copy_from_slice(data),
        }
        rest
    }
}

/// The first three ranges.
fn ranges_of(octets: &[u8]) -> Ranges {
    let mut ranges = octets.chunks_exact(8).map(|range| {
        let number = |at: usize| u32::from_be_bytes([range[at], range[at + 1], range[at + 2], range[at + 3]]);
        (number(0), number(4))
    });
    [ranges.next(), ranges.next(), ranges.next()]
}

view! {
    /// A segment of TCP.
    TcpPacket
}

impl<T: AsRef<[u8]>> TcpPacket<T> {
    /// Tests that its header is there, with its options.
    ///
    /// # Errors
    /// [`Error`] if not, or if it says that it is shorter than 20 octets.
    pub fn check_len(&self) -> Result<()> {
        let len = self.buffer.as_ref().len();
        if len < TCP_HEADER_LEN {
            return Err(Error);
        }
        let header_len = usize::from(self.header_len());
        if len < header_len || header_len < TCP_HEADER_LEN { Err(Error) } else { Ok(()) }
    }

    /// The source's port.
    pub fn src_port(&self) -> u16 {
        self.u16_at(0)
    }

    /// The destination's port.
    pub fn dst_port(&self) -> u16 {
        self.u16_at(2)
    }

    /// The number of its first octet.
    pub fn seq_number(&self) -> TcpSeqNumber {
        TcpSeqNumber(i32::from_be_bytes(self.octets_at(4)))
    }

    /// The number of the octet that its sender waits for.
    pub fn ack_number(&self) -> TcpSeqNumber {
        TcpSeqNumber(i32::from_be_bytes(self.octets_at(8)))
    }

    fn flag(&self, mask: u16) -> bool {
        self.u16_at(12) & mask != 0
    }

    /// The octets of its header, with options.
    pub fn header_len(&self) -> u8 {
        (self.u8_at(12) >> 4) * 4
    }

    /// The sender's window, not scaled.
    pub fn window_len(&self) -> u16 {
        self.u16_at(14)
    }

    /// The checksum.
    pub fn checksum(&self) -> u16 {
        self.u16_at(16)
    }

    /// Where urgent octets end, behind its first one.
    pub fn urgent_at(&self) -> u16 {
        self.u16_at(18)
    }

    /// How many sequence numbers it takes.
    pub fn segment_len(&self) -> usize {
        let octets = self.buffer.as_ref().len() - usize::from(self.header_len());
        octets + usize::from(self.syn()) + usize::from(self.fin())
    }

    /// Whether its checksum is that of the segment and its pseudo-header.
    ///
    /// # Panics
    /// If the addresses are of two versions.
    pub fn verify_checksum(&self, src_addr: &IpAddress, dst_addr: &IpAddress) -> bool {
        self.sum(src_addr, dst_addr) == 0xffff
    }

    fn sum(&self, src_addr: &IpAddress, dst_addr: &IpAddress) -> u32 {
        let octets = self.buffer.as_ref();
        folded(pseudo_header(src_addr, dst_addr, IpProtocol::Tcp.into(), octets.len()) + sum(octets))
    }

    fn options_of(&self) -> &[u8] {
        &self.buffer.as_ref()[TCP_HEADER_LEN..usize::from(self.header_len())]
    }

    /// Whether its sender takes selective acknowledgements.
    ///
    /// # Errors
    /// [`Error`] for options that can't be read.
    pub fn selective_ack_permitted(&self) -> Result<bool> {
        Options(self.options_of()).try_fold(false, |is, option| Ok(is | (option? == TcpOption::SackPermitted)))
    }

    /// What came to its sender out of order: of the last such option.
    ///
    /// # Errors
    /// [`Error`] for options that can't be read.
    pub fn selective_ack_ranges(&self) -> Result<[Option<(u32, u32)>; 3]> {
        Options(self.options_of()).try_fold([None; 3], |ranges, option| match option? {
            TcpOption::SackRange(found) => Ok(found),
            _ => Ok(ranges),
        })
    }
}

/// The options of a segment, to the end of its list. An error ends it.
struct Options<'a>(&'a [u8]);

impl<'a> Iterator for Options<'a> {
    type Item = Result<TcpOption<'a>>;

    fn next(&mut self) -> Option<Result<TcpOption<'a>>> {
        if self.0.is_empty() {
            return None;
        }
        match TcpOption::parse(self.0) {
            Ok((_, TcpOption::EndOfList)) => {
                self.0 = &[];
                None
            }
            Ok((rest, option)) => {
                self.0 = rest;
                Some(Ok(option))
            }
            Err(error) => {
                self.0 = &[];
                Some(Err(error))
            }
        }
    }
}

impl<'a, T: AsRef<[u8]> + ?Sized> TcpPacket<&'a T> {
    /// Its options.
    pub fn options(&self) -> &'a [u8] {
        &self.buffer.as_ref()[TCP_HEADER_LEN..usize::from(self.header_len())]
    }

    /// What is behind its header.
    pub fn payload(&self) -> &'a [u8] {
        &self.buffer.as_ref()[usize::from(self.header_len())..]
    }
}

/// The flags of a segment, to be read and set.
macro_rules! segment_flags {
    ($($docs:literal $name:ident $set:ident $mask:literal)*) => {
        impl<T: AsRef<[u8]>> TcpPacket<T> {
            $(#[doc = concat!("Whether ", $docs, ".")]
            pub fn $name(&self) -> bool {
                self.flag($mask)
            })*
        }

        impl<T: AsRef<[u8]> + AsMut<[u8]>> TcpPacket<T> {
            $(#[doc = concat!("Sets whether ", $docs, ".")]
            pub fn $set(&mut self, value: bool) {
                self.set_bits($mask, if value { $mask } else { 0 });
            })*
        }
    };
}

segment_flags! {
    "its sender has no more octets" fin set_fin 0x001
    "a connection begins" syn set_syn 0x002
    "the connection is reset" rst set_rst 0x004
    "what came is to be handed on" psh set_psh 0x008
    "its acknowledgement number counts" ack set_ack 0x010
    "its urgent pointer counts" urg set_urg 0x020
    "congestion was seen (RFC 3168)" ece set_ece 0x040
    "the sender has made its window smaller (RFC 3168)" cwr set_cwr 0x080
    "the nonce sum is set (RFC 3540)" ns set_ns 0x100
}

impl<T: AsRef<[u8]> + AsMut<[u8]>> TcpPacket<T> {
    /// Sets the source's port.
    pub fn set_src_port(&mut self, value: u16) {
        self.put(0, &value.to_be_bytes());
    }

    /// Sets the destination's port.
    pub fn set_dst_port(&mut self, value: u16) {
        self.put(2, &value.to_be_bytes());
    }

    /// Sets the number of its first octet.
    pub fn set_seq_number(&mut self, value: TcpSeqNumber) {
        self.put(4, &value.0.to_be_bytes());
    }

    /// Sets the number of the octet that its sender waits for.
    pub fn set_ack_number(&mut self, value: TcpSeqNumber) {
        self.put(8, &value.0.to_be_bytes());
    }

    fn set_bits(&mut self, mask: u16, value: u16) {
        let rest = self.u16_at(12) & !mask;
        self.put(12, &(rest | value).to_be_bytes());
    }

    /// Clears all flags.
    pub fn clear_flags(&mut self) {
        self.set_bits(0x0fff, 0);
    }

    /// Sets the octets of its header: a multiple of 4.
    pub fn set_header_len(&mut self, value: u8) {
        self.set_bits(0xf000, u16::from(value / 4) << 12);
    }

    /// Sets the sender's window, not scaled.
    pub fn set_window_len(&mut self, value: u16) {
        self.put(14, &value.to_be_bytes());
    }

    /// Sets the checksum.
    pub fn set_checksum(&mut self, value: u16) {
        self.put(16, &value.to_be_bytes());
    }

    /// Sets where urgent octets end.
    pub fn set_urgent_at(&mut self, value: u16) {
        self.put(18, &value.to_be_bytes());
    }

    /// Computes the checksum, and sets it.
    ///
    /// # Panics
    /// If the addresses are of two versions.
    pub fn fill_checksum(&mut self, src_addr: &IpAddress, dst_addr: &IpAddress) {
        self.set_checksum(0);
        let checksum = !(self.sum(src_addr, dst_addr) as u16);
        self.set_checksum(checksum);
    }

    /// Its options, to be written.
    pub fn options_mut(&mut self) -> &mut [u8] {
        let end = usize::from(self.header_len());
        &mut self.buffer.as_mut()[TCP_HEADER_LEN..end]
    }

    /// What is behind its header, to be written.
    pub fn payload_mut(&mut self) -> &mut [u8] {
        let start = usize::from(self.header_len());
        &mut self.buffer.as_mut()[start..]
    }
}

/// What is in a segment, as smoltcp writes it: its flags, numbers, window and options.
impl<T: AsRef<[u8]> + ?Sized> fmt::Display for TcpPacket<&T> {
    fn fmt(&self, f: &mut fmt::Formatter<'_>) -> fmt::Result {
        write!(f, "TCP src={} dst={}", self.src_port(), self.dst_port())?;
        let flags = [
            (self.syn(), "syn"),
            (self.fin(), "fin"),
            (self.rst(), "rst"),
            (self.psh(), "psh"),
            (self.ece(), "ece"),
            (self.cwr(), "cwr"),
            (self.ns(), "ns"),
        ];
        for (_, name) in flags.iter().filter(|(is_set, _)| *is_set) {
            write!(f, " {name}")?;
        }
        write!(f, " seq={}", self.seq_number())?;
        if self.ack() {
            write!(f, " ack={}", self.ack_number())?;
        }
        write!(f, " win={}", self.window_len())?;
        if self.urg() {
            write!(f, " urg={}", self.urgent_at())?;
        }
        write!(f, " len={}", self.payload().len())?;
        Options(self.options()).try_for_each(|option| match option {
            Ok(option) => option.fmt(f),
            Err(error) => write!(f, " ({error})"),
        })
    }
}

/// What follows in a segment's line.
impl fmt::Display for TcpOption<'_> {
    fn fmt(&self, f: &mut fmt::Formatter<'_>) -> fmt::Result {
        match self {
            TcpOption::EndOfList | TcpOption::NoOperation => Ok(()),
            TcpOption::MaxSegmentSize(size) => write!(f, " mss={size}"),
            TcpOption::WindowScale(shift) => write!(f, " ws={shift}"),
            TcpOption::SackPermitted => f.write_str(" sACK"),
            TcpOption::SackRange(ranges) => write!(f, " sACKr{ranges:?}"),
            TcpOption::TimeStamp { tsval, tsecr } => write!(f, " tsval {tsval:08x} tsecr {tsecr:08x}"),
            TcpOption::Unknown { kind, .. } => write!(f, " opt({kind})"),
        }
    }
}

impl TcpControl {
    /// How many sequence numbers it takes.
    pub const fn len(self) -> usize {
        match self {
            TcpControl::Syn | TcpControl::Fin => 1,
            _ => 0,
        }
    }

    /// Whether it takes none.
    pub const fn is_empty(self) -> bool {
        self.len() == 0
    }

    /// The same without a push, which changes nothing for the connection.
    pub const fn quash_psh(self) -> TcpControl {
        match self {
            TcpControl::Psh => TcpControl::None,
            other => other,
        }
    }
}

/// The values of a segment.
#[derive(Clone, Copy, Debug, PartialEq, Eq)]
pub struct TcpRepr<'a> {
    /// The source's port.
    pub src_port: u16,
    /// The destination's port.
    pub dst_port: u16,
    /// What it does to its connection.
    pub control: TcpControl,
    /// The number of its first octet.
    pub seq_number: TcpSeqNumber,
    /// The number of the octet that its sender waits for, if it tells.
    pub ack_number: Option<TcpSeqNumber>,
    /// The sender's window, not scaled.
    pub window_len: u16,
    /// How often the sender's windows are to be doubled, if it tells.
    pub window_scale: Option<u8>,
    /// How many octets a segment to the sender may carry, if it tells.
    pub max_seg_size: Option<u16>,
    /// Whether its sender takes selective acknowledgements.
    pub sack_permitted: bool,
    /// What came to its sender out of order.
    pub sack_ranges: [Option<(u32, u32)>; 3],
    /// Two instants, if it has them.
    pub timestamp: Option<TcpTimestampRepr>,
    /// What it carries.
    pub payload: &'a [u8],
}

impl<'a> TcpRepr<'a> {
    /// Reads a segment. Options that aren't known are skipped, and so are the urgent pointer and the flags of RFC 3168.
    ///
    /// # Errors
    /// [`Error`]: those of [`TcpPacket::check_len`], a port that is 0, more than one of the flags of [`TcpControl`] but a
    /// push, options that can't be read, and a wrong checksum, if it is to be verified.
    ///
    /// # Panics
    /// If the addresses are of two versions.
    pub fn parse<T: AsRef<[u8]> + ?Sized>(
        packet: &TcpPacket<&'a T>,
        src_addr: &IpAddress,
        dst_addr: &IpAddress,
        checksum_caps: &ChecksumCapabilities,
    ) -> Result<TcpRepr<'a>> {
        packet.check_len()?;
        let is_wrong = checksum_caps.tcp.rx() && !packet.verify_checksum(src_addr, dst_addr);
        if packet.src_port() == 0 || packet.dst_port() == 0 || is_wrong {
            return Err(Error);
        }
        let mut repr = TcpRepr {
            src_port: packet.src_port(),
            dst_port: packet.dst_port(),
            control: control_of(packet)?,
            seq_number: packet.seq_number(),
            ack_number: packet.ack().then(|| packet.ack_number()),
            window_len: packet.window_len(),
            window_scale: None,
            max_seg_size: None,
            sack_permitted: false,
            sack_ranges: [None; 3],
            timestamp: None,
            payload: packet.payload(),
        };
        Options(packet.options()).try_for_each(|option| option.map(|option| repr.take(option)))?;
        Ok(repr)
    }

    /// Takes what an option says. A window is doubled at most 14 times (RFC 7323, 2.3).
    fn take(&mut self, option: TcpOption<'_>) {
        match option {
            TcpOption::MaxSegmentSize(size) => self.max_seg_size = Some(size),
            TcpOption::WindowScale(shift) => self.window_scale = Some(shift.min(14)),
            TcpOption::SackPermitted => self.sack_permitted = true,
            TcpOption::SackRange(ranges) => self.sack_ranges = ranges,
            TcpOption::TimeStamp { tsval, tsecr } => self.timestamp = Some(TcpTimestampRepr { tsval, tsecr }),
            TcpOption::EndOfList | TcpOption::NoOperation | TcpOption::Unknown { .. } => {}
        }
    }

    /// The options that it has.
    fn options(&self) -> impl Iterator<Item = TcpOption<'static>> {
        let has_ranges = self.sack_ranges.iter().any(Option::is_some);
        let timestamp = self.timestamp.map(|TcpTimestampRepr { tsval, tsecr }| TcpOption::TimeStamp { tsval, tsecr });
        [
            self.max_seg_size.map(TcpOption::MaxSegmentSize),
            self.window_scale.map(TcpOption::WindowScale),
            self.sack_permitted.then_some(TcpOption::SackPermitted),
            has_ranges.then_some(TcpOption::SackRange(self.sack_ranges)),
            timestamp,
        ]
        .into_iter()
        .flatten()
    }

    /// The octets of the header, with options: a multiple of 4.
    pub fn header_len(&self) -> usize {
        let octets: usize = self.options().map(|option| option.buffer_len()).sum();
        TCP_HEADER_LEN + octets.next_multiple_of(4)
    }

    /// The octets that `emit` writes.
    pub fn buffer_len(&self) -> usize {
        self.header_len() + self.payload.len()
    }

    /// How many sequence numbers it takes.
    pub const fn segment_len(&self) -> usize {
        self.payload.len() + self.control.len()
    }

    /// Whether it has neither octets nor a flag of [`TcpControl`] but a push.
    pub const fn is_empty(&self) -> bool {
        self.payload.is_empty() && matches!(self.control, TcpControl::None | TcpControl::Psh)
    }

    /// Writes the segment. The checksum is 0 unless it is to be computed.
    ///
    /// # Panics
    /// If there are other than [`buffer_len`](TcpRepr::buffer_len) octets, or the addresses are of two versions.
    pub fn emit<T: AsRef<[u8]> + AsMut<[u8]>>(
        &self,
        packet: &mut TcpPacket<T>,
        src_addr: &IpAddress,
        dst_addr: &IpAddress,
        checksum_caps: &ChecksumCapabilities,
    ) {
        packet.set_src_port(self.src_port);
        packet.set_dst_port(self.dst_port);
        packet.set_seq_number(self.seq_number);
        packet.set_ack_number(self.ack_number.unwrap_or(TcpSeqNumber(0)));
        packet.set_window_len(self.window_len);
        packet.set_header_len(self.header_len() as u8);
        packet.clear_flags();
        match self.control {
            TcpControl::None => {}
            TcpControl::Psh => packet.set_psh(true),
            TcpControl::Syn => packet.set_syn(true),
            TcpControl::Fin => packet.set_fin(true),
            TcpControl::Rst => packet.set_rst(true),
        }
        packet.set_ack(self.ack_number.is_some());
        packet.set_urgent_at(0);
        let rest = self.options().fold(packet.options_mut(), |buffer, option| option.emit(buffer));
        rest.fill(0);
        packet.payload_mut().copy_from_slice(self.payload);
        packet.set_checksum(0);
        if checksum_caps.tcp.tx() {
            packet.fill_checksum(src_addr, dst_addr);
        }
    }
}

/// The one of a segment's flags that is set.
fn control_of<T: AsRef<[u8]>>(packet: &TcpPacket<T>) -> Result<TcpControl> {
    match (packet.syn(), packet.fin(), packet.rst(), packet.psh()) {
        (false, false, false, false) => Ok(TcpControl::None),
        (false, false, false, true) => Ok(TcpControl::Psh),
        (true, false, false, _) => Ok(TcpControl::Syn),
        (false, true, false, _) => Ok(TcpControl::Fin),
        (false, false, true, _) => Ok(TcpControl::Rst),
        _ => Err(Error),
    }
}

impl fmt::Display for TcpRepr<'_> {
    fn fmt(&self, f: &mut fmt::Formatter<'_>) -> fmt::Result {
        write!(f, "TCP src={} dst={}", self.src_port, self.dst_port)?;
        f.write_str(match self.control {
            TcpControl::None => "",
            TcpControl::Psh => " psh",
            TcpControl::Syn => " syn",
            TcpControl::Fin => " fin",
            TcpControl::Rst => " rst",
        })?;
        write!(f, " seq={}", self.seq_number)?;
        if let Some(ack_number) = self.ack_number {
            write!(f, " ack={ack_number}")?;
        }
        write!(f, " win={}", self.window_len)?;
        if let Some(max_seg_size) = self.max_seg_size {
            write!(f, " mss={max_seg_size}")?;
        }
        write!(f, " len={}", self.payload.len())
    }
}
