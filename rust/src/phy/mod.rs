//! Devices, by smoltcp's traits, and some of them.
pub use crate::checksum::{Checksum, ChecksumCapabilities};
use crate::time::Instant;
use crate::wire::ETHERNET_HEADER_LEN;
use alloc::collections::VecDeque;
use alloc::vec::Vec;

mod fault_injector;
mod fuzz_injector;
mod pcap_writer;
#[cfg(all(
    feature = "phy-raw_socket",
    target_os = "linux",
    any(target_arch = "x86_64", target_arch = "aarch64", target_arch = "riscv64")
))]
mod raw_socket;
mod tracer;
#[cfg(all(
    feature = "std",
    target_os = "linux",
    any(target_arch = "x86_64", target_arch = "aarch64", target_arch = "riscv64")
))]
mod tuntap;
pub use fault_injector::FaultInjector;
pub use fuzz_injector::{FuzzInjector, Fuzzer};
pub use pcap_writer::{PcapLinkType, PcapMode, PcapSink, PcapWriter};
#[cfg(all(
    feature = "phy-raw_socket",
    target_os = "linux",
    any(target_arch = "x86_64", target_arch = "aarch64", target_arch = "riscv64")
))]
pub use raw_socket::RawSocket;
pub use tracer::{Tracer, TracerDirection, TracerPacket};
#[cfg(all(
    feature = "std",
    target_os = "linux",
    any(target_arch = "x86_64", target_arch = "aarch64", target_arch = "riscv64")
))]
pub use tuntap::{TunTapInterface, TunTapRxToken, TunTapTxToken, wait};

/// What a device's frames begin with.
#[derive(Clone, Copy, Debug, Default, PartialEq, Eq)]
pub enum Medium {
    /// A header of Ethernet.
    #[default]
    Ethernet,
    /// The header of IP: the medium has no hardware addresses.
    Ip,
    /// A header of IEEE 802.15.4: for programs that name it. No interface is made over it, and no device has it.
    #[cfg(feature = "medium-ieee802154")]
    Ieee802154,
}

/// What a device can do.
#[derive(Clone, Copy, Debug, PartialEq, Eq)]
#[non_exhaustive]
pub struct DeviceCapabilities {
    /// Its medium.
    pub medium: Medium,
    /// The octets of its longest frame, with a header of Ethernet where there is one: 590 or more there, else 576 or
    /// more. Of more than 1514 no frame makes use.
    pub max_transmission_unit: usize,
    /// Which checksums the library verifies and computes: all, unless they are set.
    pub checksum: ChecksumCapabilities,
    /// How many frames it takes one after the other: the window in a segment of TCP is at most what so many carry.
    /// `None` sets no bound, and so does 0.
    pub max_burst_size: Option<usize>,
}

impl Default for DeviceCapabilities {
    /// Ethernet with frames of 1514 octets, and all checksums the library's.
    fn default() -> DeviceCapabilities {
        DeviceCapabilities {
            medium: Medium::Ethernet,
            max_transmission_unit: crate::FRAME_ROOM,
            checksum: ChecksumCapabilities::default(),
            max_burst_size: None,
        }
    }
}

impl DeviceCapabilities {
    /// The octets of its longest packet of IP: those of its longest frame, without a header of Ethernet. Of more than 1514
    /// no frame makes use.
    pub fn ip_mtu(&self) -> usize {
        let header_len = match self.medium {
            Medium::Ethernet => ETHERNET_HEADER_LEN,
            _ => 0,
        };
        self.max_transmission_unit.saturating_sub(header_len)
    }
}

/// What smoltcp tells a device of a packet, and a device smoltcp. Here it has nothing to tell.
#[derive(Clone, Copy, Debug, Default, PartialEq, Eq, Hash)]
#[non_exhaustive]
pub struct PacketMeta {}

/// What sends and receives frames.
pub trait Device {
    /// A frame that came.
    type RxToken<'a>: RxToken
    where
        Self: 'a;
    /// Permission to send a frame.
    type TxToken<'a>: TxToken
    where
        Self: 'a;

    /// A frame that came, if there is one, with permission to send one in response.
    fn receive(&mut self, timestamp: Instant) -> Option<(Self::RxToken<'_>, Self::TxToken<'_>)>;

    /// Permission to send a frame, if the device gives it.
    fn transmit(&mut self, timestamp: Instant) -> Option<Self::TxToken<'_>>;

    /// What it can do, which is asked once.
    fn capabilities(&self) -> DeviceCapabilities;
}

/// A frame that came.
pub trait RxToken {
    /// Shows the frame to `f`.
    fn consume<R, F>(self, f: F) -> R
    where
        F: FnOnce(&[u8]) -> R;

    /// What is told of it: nothing asks.
    fn meta(&self) -> PacketMeta {
        PacketMeta::default()
    }
}

/// Permission to send a frame.
pub trait TxToken {
    /// Sends what `f` writes: a frame of `len` octets.
    fn consume<R, F>(self, len: usize, f: F) -> R
    where
        F: FnOnce(&mut [u8]) -> R;

    /// What it is told of the packet: nothing tells it.
    fn set_meta(&mut self, _meta: PacketMeta) {}
}

/// A device in memory: what is put into `incoming` comes, and what is sent is kept in `sent`.
#[derive(Clone, Debug, Default)]
pub struct MemoryDevice {
    capabilities: DeviceCapabilities,
    /// The frames that come, the next one first.
    pub incoming: VecDeque<Vec<u8>>,
    /// The frames that were sent, the last one last.
    pub sent: VecDeque<Vec<u8>>,
}

impl MemoryDevice {
    /// A device of this medium without frames.
    pub fn new(medium: Medium, max_transmission_unit: usize) -> MemoryDevice {
        let capabilities = DeviceCapabilities { medium, max_transmission_unit, ..DeviceCapabilities::default() };
        MemoryDevice { capabilities, ..MemoryDevice::default() }
    }
}

/// A frame of a [`MemoryDevice`] or [`Loopback`].
#[derive(Debug)]
pub struct MemoryRxToken(Vec<u8>);

impl RxToken for MemoryRxToken {
    fn consume<R, F: FnOnce(&[u8]) -> R>(self, f: F) -> R {
        f(&self.0)
    }
}

/// Permission to send a frame by a [`MemoryDevice`] or [`Loopback`].
#[derive(Debug)]
pub struct MemoryTxToken<'a>(&'a mut VecDeque<Vec<u8>>);

impl TxToken for MemoryTxToken<'_> {
    fn consume<R, F: FnOnce(&mut [u8]) -> R>(self, len: usize, f: F) -> R {
        let mut frame = alloc::vec![0; len];
        let result = f(&mut frame);
        self.0.push_back(frame);
        result
    }
}

impl Device for MemoryDevice {
    type RxToken<'a> = MemoryRxToken;
    type TxToken<'a> = MemoryTxToken<'a>;

    fn receive(&mut self, _timestamp: Instant) -> Option<(MemoryRxToken, MemoryTxToken<'_>)> {
        let frame = self.incoming.pop_front()?;
        Some((MemoryRxToken(frame), MemoryTxToken(&mut self.sent)))
    }

    fn transmit(&mut self, _timestamp: Instant) -> Option<MemoryTxToken<'_>> {
        Some(MemoryTxToken(&mut self.sent))
    }

    fn capabilities(&self) -> DeviceCapabilities {
        self.capabilities
    }
}

/// A device to which each frame comes that it sends.
#[derive(Clone, Debug)]
pub struct Loopback {
    medium: Medium,
    queue: VecDeque<Vec<u8>>,
}

impl Loopback {
    /// A device of this medium without frames.
    pub fn new(medium: Medium) -> Loopback {
        Loopback { medium, queue: VecDeque::new() }
    }
}

impl Device for Loopback {
    type RxToken<'a> = MemoryRxToken;
    type TxToken<'a> = MemoryTxToken<'a>;

    fn receive(&mut self, _timestamp: Instant) -> Option<(MemoryRxToken, MemoryTxToken<'_>)> {
        let frame = self.queue.pop_front()?;
        Some((MemoryRxToken(frame), MemoryTxToken(&mut self.queue)))
    }

    fn transmit(&mut self, _timestamp: Instant) -> Option<MemoryTxToken<'_>> {
        Some(MemoryTxToken(&mut self.queue))
    }

    fn capabilities(&self) -> DeviceCapabilities {
        DeviceCapabilities { medium: self.medium, ..DeviceCapabilities::default() }
    }
}
