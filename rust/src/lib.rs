#![doc = include_str!("../README.md")]
#![cfg_attr(not(feature = "std"), no_std)]
#![deny(missing_docs)]
#![deny(unsafe_op_in_unsafe_fn)]
#![deny(clippy::undocumented_unsafe_blocks)]

#[cfg(feature = "alloc")]
extern crate alloc;

mod checksum;
#[cfg(feature = "alloc")]
pub mod config;
mod guard;
#[cfg(feature = "rust-heap")]
mod heap;
mod host;
#[cfg(feature = "alloc")]
mod shared;
#[rustfmt::skip]
pub mod sys;
pub mod time;
pub mod wire;

#[cfg(feature = "alloc")]
pub mod iface;
#[cfg(feature = "alloc")]
pub mod phy;
#[cfg(feature = "alloc")]
pub mod socket;
#[cfg(feature = "alloc")]
pub mod storage;

pub use checksum::{Checksum, ChecksumCapabilities};
pub use guard::{Conflict, Drops, Guard, Rate};
pub use host::{
    Counters, Dhcp, Dns, DnsFailure, DnsQuery, DnsResult, Error, FRAME_ROOM, Frame, Host, Lease, LeaseEvent, Neighbor,
    Queue, Queues, Room, Rooms, Route, Secrets, Segment, Settings, Stream, StreamEnding, StreamSettings, StreamState,
    Streams,
};

#[doc = include_str!("../API.md")]
pub mod differences {}
