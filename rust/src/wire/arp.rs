//! ARP (RFC 826).
use super::{Error, EthernetAddress, EthernetProtocol, Ipv4Address, Result};
use core::fmt;

enum_with_unknown! {
    /// A kind of hardware addresses.
    pub enum ArpHardware(u16) {
        /// Those of Ethernet.
        Ethernet = 1,
    }
}

enum_with_unknown! {
    /// What a packet is for.
    pub enum ArpOperation(u16) {
        /// It asks.
        Request = 1,
        /// It answers.
        Reply = 2,
    }
}

view! {
    /// A packet of ARP.
    ArpPacket
}

impl<T: AsRef<[u8]>> ArpPacket<T> {
    /// Tests that all its addresses are there.
    ///
    /// # Errors
    /// [`Error`] if not.
    pub fn check_len(&self) -> Result<()> {
        let len = self.buffer.as_ref().len();
        if len < 8 || len < self.target_protocol_at() + usize::from(self.protocol_len()) { Err(Error) } else { Ok(()) }
    }

    fn source_protocol_at(&self) -> usize {
        8 + usize::from(self.hardware_len())
    }

    fn target_hardware_at(&self) -> usize {
        self.source_protocol_at() + usize::from(self.protocol_len())
    }

    fn target_protocol_at(&self) -> usize {
        self.target_hardware_at() + usize::from(self.hardware_len())
    }

    /// The kind of its hardware addresses.
    pub fn hardware_type(&self) -> ArpHardware {
        self.u16_at(0).into()
    }

    /// The protocol of its other addresses.
    pub fn protocol_type(&self) -> EthernetProtocol {
        self.u16_at(2).into()
    }

    /// The octets of a hardware address.
    pub fn hardware_len(&self) -> u8 {
        self.u8_at(4)
    }

    /// The octets of another address.
    pub fn protocol_len(&self) -> u8 {
        self.u8_at(5)
    }

    /// What it is for.
    pub fn operation(&self) -> ArpOperation {
        self.u16_at(6).into()
    }

    /// The sender's hardware address.
    pub fn source_hardware_addr(&self) -> &[u8] {
        &self.buffer.as_ref()[8..self.source_protocol_at()]
    }

    /// The sender's other address.
    pub fn source_protocol_addr(&self) -> &[u8] {
        &self.buffer.as_ref()[self.source_protocol_at()..self.target_hardware_at()]
    }

    /// The target's hardware address.
    pub fn target_hardware_addr(&self) -> &[u8] {
        &self.buffer.as_ref()[self.target_hardware_at()..self.target_protocol_at()]
    }

    /// The target's other address.
    pub fn target_protocol_addr(&self) -> &[u8] {
        let at = self.target_protocol_at();
        &self.buffer.as_ref()[at..at + usize::from(self.protocol_len())]
    }
}

impl<T: AsRef<[u8]> + AsMut<[u8]>> ArpPacket<T> {
    /// Sets the kind of its hardware addresses.
    pub fn set_hardware_type(&mut self, value: ArpHardware) {
        self.put(0, &u16::from(value).to_be_bytes());
    }

    /// Sets the protocol of its other addresses.
    pub fn set_protocol_type(&mut self, value: EthernetProtocol) {
        self.put(2, &u16::from(value).to_be_bytes());
    }

    /// Sets the octets of a hardware address.
    pub fn set_hardware_len(&mut self, value: u8) {
        self.put(4, &[value]);
    }

    /// Sets the octets of another address.
    pub fn set_protocol_len(&mut self, value: u8) {
        self.put(5, &[value]);
    }

    /// Sets what it is for.
    pub fn set_operation(&mut self, value: ArpOperation) {
        self.put(6, &u16::from(value).to_be_bytes());
    }

    /// Sets the sender's hardware address.
    ///
    /// # Panics
    /// If it has another length than was set.
    pub fn set_source_hardware_addr(&mut self, value: &[u8]) {
        assert_eq!(value.len(), usize::from(self.hardware_len()));
        self.put(8, value);
    }

    /// Sets the sender's other address.
    ///
    /// # Panics
    /// If it has another length than was set.
    pub fn set_source_protocol_addr(&mut self, value: &[u8]) {
        assert_eq!(value.len(), usize::from(self.protocol_len()));
        self.put(self.source_protocol_at(), value);
    }

    /// Sets the target's hardware address.
    ///
    /// # Panics
    /// If it has another length than was set.
    pub fn set_target_hardware_addr(&mut self, value: &[u8]) {
        assert_eq!(value.len(), usize::from(self.hardware_len()));
        self.put(self.target_hardware_at(), value);
    }

    /// Sets the target's other address.
    ///
    /// # Panics
    /// If it has another length than was set.
    pub fn set_target_protocol_addr(&mut self, value: &[u8]) {
        assert_eq!(value.len(), usize::from(self.protocol_len()));
        self.put(self.target_protocol_at(), value);
    }
}

/// The values of a packet of ARP.
#[derive(Clone, Copy, Debug, PartialEq, Eq)]
#[non_exhaustive]
pub enum ArpRepr {
    /// For IPv4 on Ethernet.
    EthernetIpv4 {
        /// What it is for.
        operation: ArpOperation,
        /// The sender's hardware address.
        source_hardware_addr: EthernetAddress,
        /// The sender's address.
        source_protocol_addr: Ipv4Address,
        /// The target's hardware address.
        target_hardware_addr: EthernetAddress,
        /// The target's address.
        target_protocol_addr: Ipv4Address,
    },
}

impl ArpRepr {
    /// Reads a packet.
    ///
    /// # Errors
    /// [`Error`] if it isn't for IPv4 on Ethernet, or an address isn't there.
    pub fn parse<T: AsRef<[u8]>>(packet: &ArpPacket<T>) -> Result<ArpRepr> {
        packet.check_len()?;
        let kinds = (packet.hardware_type(), packet.protocol_type(), packet.hardware_len(), packet.protocol_len());
        if kinds != (ArpHardware::Ethernet, EthernetProtocol::Ipv4, 6, 4) {
            return Err(Error);
        }
        Ok(ArpRepr::EthernetIpv4 {
            operation: packet.operation(),
            source_hardware_addr: EthernetAddress(packet.octets_at(8)),
            source_protocol_addr: packet.octets_at::<4>(14).into(),
            target_hardware_addr: EthernetAddress(packet.octets_at(18)),
            target_protocol_addr: packet.octets_at::<4>(24).into(),
        })
    }

    /// The octets that `emit` writes.
    pub const fn buffer_len(&self) -> usize {
        28
    }

    /// Writes the packet.
    ///
    /// # Panics
    /// If there are fewer octets.
    pub fn emit<T: AsRef<[u8]> + AsMut<[u8]>>(&self, packet: &mut ArpPacket<T>) {
        let ArpRepr::EthernetIpv4 {
            operation,
            source_hardware_addr,
            source_protocol_addr,
            target_hardware_addr,
            target_protocol_addr,
        } = *self;
        packet.set_hardware_type(ArpHardware::Ethernet);
        packet.set_protocol_type(EthernetProtocol::Ipv4);
        packet.set_hardware_len(6);
        packet.set_protocol_len(4);
        packet.set_operation(operation);
        packet.set_source_hardware_addr(source_hardware_addr.as_bytes());
        packet.set_source_protocol_addr(&source_protocol_addr.octets());
        packet.set_target_hardware_addr(target_hardware_addr.as_bytes());
        packet.set_target_protocol_addr(&target_protocol_addr.octets());
    }
}

impl fmt::Display for ArpRepr {
    fn fmt(&self, f: &mut fmt::Formatter<'_>) -> fmt::Result {
        let ArpRepr::EthernetIpv4 {
            operation,
            source_hardware_addr,
            source_protocol_addr,
            target_hardware_addr,
            target_protocol_addr,
        } = self;
        write!(
            f,
            "ARP type=Ethernet+IPv4 src={source_hardware_addr}/{source_protocol_addr} \
             tgt={target_hardware_addr}/{target_protocol_addr} op={operation:?}"
        )
    }
}
