//! IGMP, versions 1 and 2 (RFC 1112, RFC 2236).
use super::forms::{folded, sum};
use super::{Error, Ipv4Address, Result};
use crate::time::Duration;
use core::fmt;

enum_with_unknown! {
    /// The type of a message.
    pub enum IgmpMessage(u8) {
        /// A router asks for groups.
        MembershipQuery = 0x11,
        /// A host tells of a group, in version 1.
        MembershipReportV1 = 0x12,
        /// A host tells of a group, in version 2.
        MembershipReportV2 = 0x16,
        /// A host leaves a group.
        LeaveGroup = 0x17,
    }
}

/// A version of IGMP.
#[derive(Clone, Copy, Debug, PartialEq, Eq)]
pub enum IgmpVersion {
    /// RFC 1112.
    Version1,
    /// RFC 2236.
    Version2,
}

const MESSAGE_LEN: usize = 8;

view! {
    /// A message of IGMP.
    IgmpPacket
}

impl<T: AsRef<[u8]>> IgmpPacket<T> {
    /// Tests that the message is there.
    ///
    /// # Errors
    /// [`Error`] if there are fewer than 8 octets.
    pub fn check_len(&self) -> Result<()> {
        if self.buffer.as_ref().len() < MESSAGE_LEN { Err(Error) } else { Ok(()) }
    }

    /// The type.
    pub fn msg_type(&self) -> IgmpMessage {
        self.u8_at(0).into()
    }

    /// The longest time until an answer, as a code.
    pub fn max_resp_code(&self) -> u8 {
        self.u8_at(1)
    }

    /// The checksum.
    pub fn checksum(&self) -> u16 {
        self.u16_at(2)
    }

    /// The group: 0.0.0.0 if all are asked for.
    pub fn group_addr(&self) -> Ipv4Address {
        self.octets_at::<4>(4).into()
    }

    /// Whether its checksum is that of the message.
    pub fn verify_checksum(&self) -> bool {
        sum(self.buffer.as_ref()) == 0xffff
    }
}

impl<T: AsRef<[u8]> + AsMut<[u8]>> IgmpPacket<T> {
    /// Sets the type.
    pub fn set_msg_type(&mut self, value: IgmpMessage) {
        self.put(0, &[value.into()]);
    }

    /// Sets the longest time until an answer, as a code.
    pub fn set_max_resp_code(&mut self, value: u8) {
        self.put(1, &[value]);
    }

    /// Sets the checksum.
    pub fn set_checksum(&mut self, value: u16) {
        self.put(2, &value.to_be_bytes());
    }

    /// Sets the group.
    pub fn set_group_address(&mut self, value: Ipv4Address) {
        self.put(4, &value.octets());
    }

    /// Computes the checksum, and sets it.
    pub fn fill_checksum(&mut self) {
        self.set_checksum(0);
        let sum = folded(sum(self.buffer.as_ref()));
        self.set_checksum(!(sum as u16));
    }
}

/// The values of a message of IGMP.
#[derive(Clone, Copy, Debug, PartialEq, Eq)]
pub enum IgmpRepr {
    /// A router asks for groups.
    MembershipQuery {
        /// The longest time until an answer.
        max_resp_time: Duration,
        /// The group: 0.0.0.0 if all are asked for.
        group_addr: Ipv4Address,
        /// The router's version.
        version: IgmpVersion,
    },
    /// A host tells of a group.
    MembershipReport {
        /// The group.
        group_addr: Ipv4Address,
        /// The message's version.
        version: IgmpVersion,
    },
    /// A host leaves a group.
    LeaveGroup {
        /// The group.
        group_addr: Ipv4Address,
    },
}

/// The time of a code, in tenths of a second (RFC 3376 4.1.1).
const fn tenths_of(code: u8) -> u64 {
    if code < 128 { code as u64 } else { ((code & 0x0f | 0x10) as u64) << ((code >> 4 & 0x07) + 3) }
}

/// The code of the longest time that has one and isn't longer, in tenths of a second.
fn code_of(tenths: u64) -> u8 {
    (0..=u8::MAX).rev().find(|code| tenths_of(*code) <= tenths).unwrap_or(0)
}

impl IgmpRepr {
    /// Reads a message. Its checksum isn't verified, as by smoltcp: [`IgmpPacket::verify_checksum`] does that.
    ///
    /// # Errors
    /// [`Error`] if there are fewer than 8 octets, the address is neither a group's nor 0.0.0.0, or the type is none of
    /// these.
    pub fn parse<T: AsRef<[u8]> + ?Sized>(packet: &IgmpPacket<&T>) -> Result<IgmpRepr> {
        packet.check_len()?;
        let group_addr = packet.group_addr();
        if !(group_addr.is_unspecified() || group_addr.is_multicast()) {
            return Err(Error);
        }
        Ok(match packet.msg_type() {
            IgmpMessage::MembershipQuery => IgmpRepr::MembershipQuery {
                max_resp_time: Duration::from_millis(100 * tenths_of(packet.max_resp_code())),
                group_addr,
                // RFC 3376 7.1.
                version: if packet.max_resp_code() == 0 { IgmpVersion::Version1 } else { IgmpVersion::Version2 },
            },
            IgmpMessage::MembershipReportV1 => {
                IgmpRepr::MembershipReport { group_addr, version: IgmpVersion::Version1 }
            }
            IgmpMessage::MembershipReportV2 => {
                IgmpRepr::MembershipReport { group_addr, version: IgmpVersion::Version2 }
            }
            IgmpMessage::LeaveGroup => IgmpRepr::LeaveGroup { group_addr },
            IgmpMessage::Unknown(_) => return Err(Error),
        })
    }

    /// The octets that `emit` writes.
    pub const fn buffer_len(&self) -> usize {
        MESSAGE_LEN
    }

    /// Writes the message, with its checksum over all octets of the view.
    ///
    /// # Panics
    /// If there are fewer octets.
    pub fn emit<T: AsRef<[u8]> + AsMut<[u8]>>(&self, packet: &mut IgmpPacket<T>) {
        let (kind, code, group_addr) = match *self {
            IgmpRepr::MembershipQuery { group_addr, version: IgmpVersion::Version1, .. } => {
                (IgmpMessage::MembershipQuery, 0, group_addr)
            }
            IgmpRepr::MembershipQuery { max_resp_time, group_addr, version: IgmpVersion::Version2 } => {
                (IgmpMessage::MembershipQuery, code_of(max_resp_time.total_millis() / 100), group_addr)
            }
            IgmpRepr::MembershipReport { group_addr, version: IgmpVersion::Version1 } => {
                (IgmpMessage::MembershipReportV1, 0, group_addr)
            }
            IgmpRepr::MembershipReport { group_addr, version: IgmpVersion::Version2 } => {
                (IgmpMessage::MembershipReportV2, 0, group_addr)
            }
            IgmpRepr::LeaveGroup { group_addr } => (IgmpMessage::LeaveGroup, 0, group_addr),
        };
        packet.set_msg_type(kind);
        packet.set_max_resp_code(code);
        packet.set_group_address(group_addr);
        packet.fill_checksum();
    }
}

impl fmt::Display for IgmpRepr {
    fn fmt(&self, f: &mut fmt::Formatter<'_>) -> fmt::Result {
        match self {
            IgmpRepr::MembershipQuery { max_resp_time, group_addr, version } => {
                write!(
                    f,
                    "IGMP membership query max_resp_time={max_resp_time} group_addr={group_addr} version={version:?}"
                )
            }
            IgmpRepr::MembershipReport { group_addr, version } => {
                write!(f, "IGMP membership report group_addr={group_addr} version={version:?}")
            }
            IgmpRepr::LeaveGroup { group_addr } => write!(f, "IGMP leave group group_addr={group_addr}"),
        }
    }
}
