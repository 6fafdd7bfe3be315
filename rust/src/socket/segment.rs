//! Sockets for segments of TCP (RFC 9293), which they hand in and out.
//!
//! They keep no connection: a state machine above them makes one of the segments. The library computes and verifies
//! checksums, finds the next hop, and answers by a reset what no socket takes. smoltcp's `tcp` has the state machine, and
//! none such.
use super::outbox::Destination;
pub use super::{BindError, PacketBuffer, PacketMetadata, RecvError, SendError};
use super::{Core, Kind, common, hop_limits};
pub use crate::host::Segment;
use crate::host::{Error, Host, Rooms};
use crate::time::Instant;
use crate::wire::{IpEndpoint, IpListenEndpoint};
use core::marker::PhantomData;

/// What a socket is bound to, and what was said of it.
#[derive(Clone, Copy, Debug)]
pub(crate) struct Ends {
    local: IpListenEndpoint,
    remote: Option<IpEndpoint>,
    hold: Instant,
    is_aborted: bool,
}

#[derive(Debug)]
pub(crate) struct Segments;

impl Kind for Segments {
    type Endpoint = Ends;
    type Meta = Segment;

    fn open(host: &mut Host, ends: Ends, rooms: Rooms) -> Result<u32, Error> {
        let number = host.tcp_open(ends.local, ends.remote, rooms)?;
        // It is open by this number.
        let _ = host.tcp_hold(number, ends.hold);
        if ends.is_aborted {
            let _ = host.tcp_abort(number);
        }
        Ok(number)
    }

    #[inline]
    fn receive(host: &mut Host, number: u32, out: &mut [u8]) -> Result<(usize, Segment), Error> {
        host.tcp_receive(number, out)
    }

    #[inline]
    fn peek(host: &mut Host, number: u32, out: &mut [u8]) -> Result<(usize, Segment), Error> {
        host.tcp_peek(number, out)
    }
}

/// A socket for segments of TCP.
#[derive(Debug)]
pub struct Socket<'a> {
    pub(crate) core: Core<Segments>,
    lifetime: PhantomData<&'a mut [u8]>,
}

common!(Segment);
hop_limits!();

impl<'a> Socket<'a> {
    /// A socket with queues for what comes and what goes, which isn't bound.
    pub fn new(rx_buffer: PacketBuffer<'a>, tx_buffer: PacketBuffer<'a>) -> Socket<'a> {
        Socket { core: Core::new(rx_buffer, tx_buffer), lifetime: PhantomData }
    }

    /// The own end that it is bound to.
    pub fn local_endpoint(&self) -> IpListenEndpoint {
        self.core.endpoint.map_or_else(IpListenEndpoint::default, |ends| ends.local)
    }

    /// The end from which alone it gets segments. `None`: from each.
    pub fn remote_endpoint(&self) -> Option<IpEndpoint> {
        self.core.endpoint.and_then(|ends| ends.remote)
    }

    /// Binds it to a port of one address, or of any, which 0.0.0.0 and :: are too, for segments from one end alone, or
    /// from each. It holds nothing back then, and isn't aborted.
    ///
    /// # Errors
    /// [`BindError::Unaddressable`] if a port is 0, the own address a group's or 255.255.255.255, or the remote one
    /// unspecified; [`BindError::InvalidState`] if it is bound; [`BindError::Exhausted`] if it is in a set and can't be
    /// opened there.
    pub fn bind(&mut self, local: impl Into<IpListenEndpoint>, remote: Option<IpEndpoint>) -> Result<(), BindError> {
        let local = local.into();
        let is_no_hosts = local.addr.is_some_and(|addr| addr.is_multicast() || addr.is_broadcast());
        let is_no_remote = remote.is_some_and(|remote| remote.port == 0 || remote.addr.is_unspecified());
        if !local.is_specified() || is_no_hosts || is_no_remote {
            return Err(BindError::Unaddressable);
        }
        self.core.bind(Ends { local, remote, hold: Instant::ZERO, is_aborted: false })
    }

    /// Closes it: what waits in its queues is dropped.
    pub fn close(&mut self) {
        self.core.close();
    }

    /// Lets it send nothing before this instant. Nothing, if it isn't bound.
    pub fn hold_until(&mut self, until: Instant) {
        if let Some(ends) = &mut self.core.endpoint {
            ends.hold = until;
        }
        // It is refused only where it isn't open.
        let _ = self.core.call(|host, number| host.tcp_hold(number, until));
    }

    /// Lets it get no segment from now on: each that it would have got is answered by a reset, unless it is one. What
    /// waits in its queues stays. Nothing, if it isn't bound.
    pub fn abort(&mut self) {
        if let Some(ends) = &mut self.core.endpoint {
            ends.is_aborted = true;
        }
        // It is refused only where it isn't open.
        let _ = self.core.call(|host, number| host.tcp_abort(number));
    }

    /// Queues a segment from the socket's port, with its payload.
    ///
    /// # Errors
    /// [`SendError`]: then nothing is queued.
    #[inline]
    pub fn send_slice(&mut self, payload: &[u8], segment: Segment) -> Result<(), SendError> {
        self.core.send(Destination::Segment(segment), payload)
    }

    /// Takes the first segment that came: its payload, and its header.
    ///
    /// # Errors
    /// [`RecvError::Exhausted`] if none came.
    #[inline]
    pub fn recv(&mut self) -> Result<(&[u8], Segment), RecvError> {
        self.core.recv()
    }

    /// Takes the first segment that came, its payload into a buffer, and returns the length of that.
    ///
    /// # Errors
    /// [`RecvError::Exhausted`] if none came, [`RecvError::Truncated`] if it is longer than the buffer: then it is
    /// dropped.
    #[inline]
    pub fn recv_slice(&mut self, payload: &mut [u8]) -> Result<(usize, Segment), RecvError> {
        self.core.recv_slice(payload)
    }

    /// The first segment that came, which stays.
    ///
    /// # Errors
    /// [`RecvError::Exhausted`] if none came.
    pub fn peek(&mut self) -> Result<(&[u8], &Segment), RecvError> {
        self.core.peek()
    }

    /// Copies the payload of the first segment that came, which stays, into a buffer, and returns its length.
    ///
    /// # Errors
    /// [`RecvError::Exhausted`] if none came, [`RecvError::Truncated`] if it is longer than the buffer.
    pub fn peek_slice(&mut self, payload: &mut [u8]) -> Result<(usize, &Segment), RecvError> {
        self.core.peek_slice(payload)
    }
}
