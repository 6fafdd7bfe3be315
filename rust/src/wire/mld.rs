//! Multicast listener discovery, version 2 (RFC 3810), over ICMPv6.
use super::icmpv6::{Icmpv6Message, Icmpv6Packet};
use super::{Error, Ipv6Address, Result};
use core::fmt;

enum_with_unknown! {
    /// What a record says of a group (RFC 3810 5.2.12).
    pub enum MldRecordType(u8) {
        /// These sources are listened to.
        ModeIsInclude = 1,
        /// All but these sources are listened to.
        ModeIsExclude = 2,
        /// From now on these sources are listened to.
        ChangeToInclude = 3,
        /// From now on all but these sources are listened to.
        ChangeToExclude = 4,
        /// These sources are listened to, too.
        AllowNewSources = 5,
        /// These sources aren't listened to any more.
        BlockOldSources = 6,
    }
}

const RECORD_LEN: usize = 20;

impl<T: AsRef<[u8]>> Icmpv6Packet<T> {
    /// The longest time until an answer, as a code (RFC 3810 5.1.3).
    pub fn max_resp_code(&self) -> u16 {
        self.u16_at(4)
    }

    /// The group of a query: :: if all are asked for.
    pub fn mcast_addr(&self) -> Ipv6Address {
        self.octets_at::<16>(8).into()
    }

    /// Whether routers are to leave their timers alone.
    pub fn s_flag(&self) -> bool {
        self.u8_at(24) & 0x08 != 0
    }

    /// The querier's robustness variable.
    pub fn qrv(&self) -> u8 {
        self.u8_at(24) & 0x07
    }

    /// The querier's interval, as a code (RFC 3810 5.1.9).
    pub fn qqic(&self) -> u8 {
        self.u8_at(25)
    }

    /// How many sources a query names.
    pub fn num_srcs(&self) -> u16 {
        self.u16_at(26)
    }

    /// How many records a report has.
    pub fn nr_mcast_addr_rcrds(&self) -> u16 {
        self.u16_at(6)
    }
}

impl<T: AsRef<[u8]> + AsMut<[u8]>> Icmpv6Packet<T> {
    /// Sets the longest time until an answer, as a code.
    pub fn set_max_resp_code(&mut self, value: u16) {
        self.put(4, &value.to_be_bytes());
    }

    /// Sets the group of a query.
    pub fn set_mcast_addr(&mut self, value: Ipv6Address) {
        self.put(8, &value.octets());
    }

    /// Says that routers are to leave their timers alone.
    pub fn set_s_flag(&mut self) {
        let octet = self.u8_at(24);
        self.put(24, &[octet & 0x07 | 0x08]);
    }

    /// Says that they aren't.
    pub fn clear_s_flag(&mut self) {
        let octet = self.u8_at(24);
        self.put(24, &[octet & 0x07]);
    }

    /// Sets the querier's robustness variable: 0 if it is above 7 (RFC 3810 5.1.8).
    pub fn set_qrv(&mut self, value: u8) {
        let octet = self.u8_at(24);
        self.put(24, &[octet & 0x08 | if value > 7 { 0 } else { value }]);
    }

    /// Sets the querier's interval, as a code.
    pub fn set_qqic(&mut self, value: u8) {
        self.put(25, &[value]);
    }

    /// Sets how many sources a query names.
    pub fn set_num_srcs(&mut self, value: u16) {
        self.put(26, &value.to_be_bytes());
    }

    /// Sets how many records a report has.
    pub fn set_nr_mcast_addr_rcrds(&mut self, value: u16) {
        self.put(6, &value.to_be_bytes());
    }
}

view! {
    /// A record of a report (RFC 3810 5.2).
    MldAddressRecord
}

impl<T: AsRef<[u8]>> MldAddressRecord<T> {
    /// Tests that the record is there, up to its group.
    ///
    /// # Errors
    /// [`Error`] if there are fewer than 20 octets.
    pub fn check_len(&self) -> Result<()> {
        if self.buffer.as_ref().len() < RECORD_LEN { Err(Error) } else { Ok(()) }
    }

    /// What it says.
    pub fn record_type(&self) -> MldRecordType {
        self.u8_at(0).into()
    }

    /// The length of its auxiliary data, in units of four octets.
    pub fn aux_data_len(&self) -> u8 {
        self.u8_at(1)
    }

    /// How many sources it names.
    pub fn num_srcs(&self) -> u16 {
        self.u16_at(2)
    }

    /// The group.
    pub fn mcast_addr(&self) -> Ipv6Address {
        self.octets_at::<16>(4).into()
    }
}

impl<'a, T: AsRef<[u8]> + ?Sized> MldAddressRecord<&'a T> {
    /// What is behind the group: sources, auxiliary data, and what follows the record.
    pub fn payload(&self) -> &'a [u8] {
        &self.buffer.as_ref()[RECORD_LEN..]
    }
}

impl<T: AsRef<[u8]> + AsMut<[u8]>> MldAddressRecord<T> {
    /// Sets what it says.
    pub fn set_record_type(&mut self, value: MldRecordType) {
        self.put(0, &[value.into()]);
    }

    /// Sets the length of its auxiliary data, in units of four octets.
    pub fn set_aux_data_len(&mut self, value: u8) {
        self.put(1, &[value]);
    }

    /// Sets how many sources it names.
    pub fn set_num_srcs(&mut self, value: u16) {
        self.put(2, &value.to_be_bytes());
    }

    /// Sets the group.
    ///
    /// # Panics
    /// If it is no group's address, as smoltcp's.
    pub fn set_mcast_addr(&mut self, value: Ipv6Address) {
        assert!(value.is_multicast());
        self.put(4, &value.octets());
    }

    /// What is behind the group, to be written.
    pub fn payload_mut(&mut self) -> &mut [u8] {
        &mut self.buffer.as_mut()[RECORD_LEN..]
    }
}

/// The values of a record.
#[derive(Clone, Copy, Debug, PartialEq, Eq)]
pub struct MldAddressRecordRepr<'a> {
    /// What it says.
    pub record_type: MldRecordType,
    /// The length of its auxiliary data, in units of four octets.
    pub aux_data_len: u8,
    /// How many sources it names.
    pub num_srcs: u16,
    /// The group.
    pub mcast_addr: Ipv6Address,
    /// Sources and auxiliary data.
    pub payload: &'a [u8],
}

impl<'a> MldAddressRecordRepr<'a> {
    /// A record without sources and auxiliary data.
    pub const fn new(record_type: MldRecordType, mcast_addr: Ipv6Address) -> MldAddressRecordRepr<'a> {
        MldAddressRecordRepr { record_type, aux_data_len: 0, num_srcs: 0, mcast_addr, payload: &[] }
    }

    /// Reads a record. Its payload is all that follows the group, as smoltcp's.
    ///
    /// # Errors
    /// [`Error`] if there are fewer octets than it says.
    pub fn parse<T: AsRef<[u8]> + ?Sized>(record: &MldAddressRecord<&'a T>) -> Result<MldAddressRecordRepr<'a>> {
        record.check_len()?;
        let (num_srcs, aux_data_len) = (record.num_srcs(), record.aux_data_len());
        if record.payload().len() < 16 * usize::from(num_srcs) + 4 * usize::from(aux_data_len) {
            return Err(Error);
        }
        Ok(MldAddressRecordRepr {
            record_type: record.record_type(),
            aux_data_len,
            num_srcs,
            mcast_addr: record.mcast_addr(),
            payload: record.payload(),
        })
    }

    /// The octets that `emit` writes.
    pub const fn buffer_len(&self) -> usize {
        RECORD_LEN + self.payload.len()
    }

    /// Writes the record.
    ///
    /// # Panics
    /// If there are fewer octets, or the address is no group's.
    pub fn emit<T: AsRef<[u8]> + AsMut<[u8]>>(&self, record: &mut MldAddressRecord<T>) {
        record.set_record_type(self.record_type);
        record.set_aux_data_len(self.aux_data_len);
        record.set_num_srcs(self.num_srcs);
        record.set_mcast_addr(self.mcast_addr);
        record.put(RECORD_LEN, self.payload);
    }
}

/// The values of a message.
#[derive(Clone, Copy, Debug, PartialEq, Eq)]
pub enum MldRepr<'a> {
    /// A router asks for groups.
    Query {
        /// The longest time until an answer, as a code.
        max_resp_code: u16,
        /// The group: :: if all are asked for.
        mcast_addr: Ipv6Address,
        /// Whether routers are to leave their timers alone.
        s_flag: bool,
        /// The querier's robustness variable.
        qrv: u8,
        /// The querier's interval, as a code.
        qqic: u8,
        /// How many sources it names.
        num_srcs: u16,
        /// The sources.
        data: &'a [u8],
    },
    /// A host tells of its groups.
    Report {
        /// How many records it has.
        nr_mcast_addr_rcrds: u16,
        /// The records.
        data: &'a [u8],
    },
    /// The same by the values of its records, to be written.
    ReportRecordReprs(&'a [MldAddressRecordRepr<'a>]),
}

impl<'a> MldRepr<'a> {
    /// Reads a query or a report of version 2. Its checksum isn't verified: [`Icmpv6Repr::parse`](super::Icmpv6Repr::parse)
    /// does that.
    ///
    /// # Errors
    /// [`Error`] if it isn't whole, as a query of version 1, of 24 octets, or is neither of these messages.
    pub fn parse<T: AsRef<[u8]> + ?Sized>(packet: &Icmpv6Packet<&'a T>) -> Result<MldRepr<'a>> {
        packet.check_len()?;
        let data = packet.payload();
        match packet.msg_type() {
            Icmpv6Message::MldQuery => Ok(MldRepr::Query {
                max_resp_code: packet.max_resp_code(),
                mcast_addr: packet.mcast_addr(),
                s_flag: packet.s_flag(),
                qrv: packet.qrv(),
                qqic: packet.qqic(),
                num_srcs: packet.num_srcs(),
                data,
            }),
            Icmpv6Message::MldReport => Ok(MldRepr::Report { nr_mcast_addr_rcrds: packet.nr_mcast_addr_rcrds(), data }),
            _ => Err(Error),
        }
    }

    /// The octets that `emit` writes.
    pub const fn buffer_len(&self) -> usize {
        match self {
            MldRepr::Query { data, .. } => 28 + data.len(),
            MldRepr::Report { data, .. } => 8 + data.len(),
            MldRepr::ReportRecordReprs(records) => {
                let (mut len, mut i) = (8, 0);
                while i < records.len() {
                    len += records[i].buffer_len();
                    i += 1;
                }
                len
            }
        }
    }

    /// Writes the message but for its checksum: [`Icmpv6Repr::emit`](super::Icmpv6Repr::emit) computes that. What nothing
    /// is said by is 0.
    ///
    /// # Panics
    /// If there are fewer octets, or a record's address is no group's.
    pub fn emit<T: AsRef<[u8]> + AsMut<[u8]>>(&self, packet: &mut Icmpv6Packet<T>) {
        let kind = if let MldRepr::Query { .. } = self { Icmpv6Message::MldQuery } else { Icmpv6Message::MldReport };
        packet.set_msg_type(kind);
        packet.set_msg_code(0);
        packet.put(4, &[0; 4]);
        match *self {
            MldRepr::Query { max_resp_code, mcast_addr, s_flag, qrv, qqic, num_srcs, data } => {
                packet.set_max_resp_code(max_resp_code);
                packet.set_mcast_addr(mcast_addr);
                packet.put(24, &[0]);
                packet.set_qrv(qrv);
                if s_flag {
                    packet.set_s_flag();
                }
                packet.set_qqic(qqic);
                packet.set_num_srcs(num_srcs);
                packet.payload_mut()[..data.len()].copy_from_slice(data);
            }
            MldRepr::Report { nr_mcast_addr_rcrds, data } => {
                packet.set_nr_mcast_addr_rcrds(nr_mcast_addr_rcrds);
                packet.payload_mut()[..data.len()].copy_from_slice(data);
            }
            MldRepr::ReportRecordReprs(records) => {
                packet.set_nr_mcast_addr_rcrds(records.len() as u16);
                let mut octets = packet.payload_mut();
                for record in records {
                    let (head, rest) = octets.split_at_mut(record.buffer_len());
                    record.emit(&mut MldAddressRecord::new_unchecked(head));
                    octets = rest;
                }
            }
        }
    }
}

impl fmt::Display for MldRepr<'_> {
    fn fmt(&self, f: &mut fmt::Formatter<'_>) -> fmt::Result {
        match self {
            MldRepr::Query { max_resp_code, mcast_addr, .. } => {
                write!(f, "MLD query max_resp_code={max_resp_code} group_addr={mcast_addr}")
            }
            MldRepr::Report { nr_mcast_addr_rcrds, .. } => write!(f, "MLD report records={nr_mcast_addr_rcrds}"),
            MldRepr::ReportRecordReprs(records) => write!(f, "MLD report records={}", records.len()),
        }
    }
}
