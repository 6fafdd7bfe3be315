//! Room that a program gives, and a queue in such room.
//!
//! The queues of sockets are the library's. What a program gives for them counts, and isn't used.
mod managed_slice;
mod ring_buffer;

pub use crate::socket::{PacketBuffer, PacketMetadata};
pub use managed_slice::ManagedSlice;
pub use ring_buffer::RingBuffer;

/// There is no room.
#[derive(Clone, Copy, Debug, PartialEq, Eq)]
pub struct Full;

/// There is nothing.
#[derive(Clone, Copy, Debug, PartialEq, Eq)]
pub struct Empty;

/// What can be made as it was at first.
pub trait Resettable {
    /// Makes it as it was at first.
    fn reset(&mut self);
}
