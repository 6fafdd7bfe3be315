//! TCP sockets (RFC 9293).
//!
//! The connections of an interface are the library's, with all that waits in them. They are made when the first socket
//! listens or connects, as [`TcpConfig`](crate::iface::TcpConfig) says. So a program that has no TCP socket is linked
//! without them.
//!
//! ```
//! # #[cfg(feature = "std")]
//! # fn main() {
//! use fumitorygate::{iface::*, phy::*, socket::tcp, time::Instant, wire::*};
//!
//! let (now, mut device) = (Instant::ZERO, Loopback::new(Medium::Ip));
//! let mut iface = Interface::new(Config::new(HardwareAddress::Ip), &mut device, now);
//! iface.update_ip_addrs(|list| list.push("127.0.0.1/8".parse().unwrap()).unwrap());
//! let mut sockets = SocketSet::of(&iface);
//! let socket = || tcp::Socket::new(tcp::SocketBuffer::new(vec![0; 2048]), tcp::SocketBuffer::new(vec![0; 2048]));
//! let (server, client) = (sockets.add(socket()), sockets.add(socket()));
//!
//! sockets.get_mut::<tcp::Socket>(server).listen(7).unwrap();
//! let local = (IpAddress::v4(127, 0, 0, 1), 7);
//! sockets.get_mut::<tcp::Socket>(client).connect(iface.context(), local, 49152).unwrap();
//! while iface.poll(now, &mut device, &mut sockets) != PollResult::None {}
//! sockets.get_mut::<tcp::Socket>(client).send_slice(b"hello").unwrap();
//! while iface.poll(now, &mut device, &mut sockets) != PollResult::None {}
//! let octets = sockets.get_mut::<tcp::Socket>(server).recv(|octets| (octets.len(), octets.to_vec()));
//! assert_eq!(octets, Ok(b"hello".to_vec()));
//! # }
//! # #[cfg(not(feature = "std"))]
//! # fn main() {}
//! ```
use crate::host::Error;
pub use crate::host::StreamState as State;
use crate::iface::Context;
use crate::shared::{Look, Shared};
use crate::storage::RingBuffer;
use crate::time::Duration;
use crate::wire::{IpEndpoint, IpListenEndpoint};
use alloc::vec::Vec;
use core::fmt;
use core::marker::PhantomData;
use table::{Options, may_send, table_of};

mod table;
pub(crate) use table::Table;

/// How many octets a socket holds that aren't read, or aren't acknowledged. The room itself is the library's.
#[derive(Clone, Copy, Debug, PartialEq, Eq)]
pub struct SocketBuffer<'a> {
    octets: usize,
    lifetime: PhantomData<&'a mut [u8]>,
}

impl<'a> SocketBuffer<'a> {
    /// As many as there are, of which nothing but the number is used.
    pub fn new(storage: impl AsRef<[u8]>) -> SocketBuffer<'a> {
        SocketBuffer::with_capacity(storage.as_ref().len())
    }

    /// So many octets.
    pub const fn with_capacity(octets: usize) -> SocketBuffer<'a> {
        SocketBuffer { octets, lifetime: PhantomData }
    }
}

impl<'a> From<RingBuffer<'a, u8>> for SocketBuffer<'a> {
    /// As many octets as it has room for. In smoltcp it is a buffer itself.
    fn from(ring: RingBuffer<'a, u8>) -> SocketBuffer<'a> {
        SocketBuffer::with_capacity(ring.capacity())
    }
}

/// Why a socket doesn't listen.
#[derive(Clone, Copy, Debug, PartialEq, Eq)]
pub enum ListenError {
    /// It is open.
    InvalidState,
    /// The port is 0, or the address isn't unicast.
    Unaddressable,
    /// There is no memory.
    Exhausted,
    /// [`TcpConfig::secrets`](crate::iface::TcpConfig::secrets) isn't set, and there is no feature `std`.
    NoSecrets,
}

impl fmt::Display for ListenError {
    fn fmt(&self, f: &mut fmt::Formatter<'_>) -> fmt::Result {
        f.write_str(match self {
            ListenError::InvalidState => "invalid state",
            ListenError::Unaddressable => "unaddressable destination",
            ListenError::Exhausted => "exhausted",
            ListenError::NoSecrets => "no secrets",
        })
    }
}

impl core::error::Error for ListenError {}

impl From<Error> for ListenError {
    fn from(error: Error) -> ListenError {
        match error {
            Error::BadPort | Error::BadAddress => ListenError::Unaddressable,
            Error::NoSecrets => ListenError::NoSecrets,
            _ => ListenError::Exhausted,
        }
    }
}

/// Why a socket doesn't connect.
#[derive(Clone, Copy, Debug, PartialEq, Eq)]
pub enum ConnectError {
    /// It is open.
    InvalidState,
    /// A port is 0, an address isn't unicast, the two are of different versions, there is no own one, or no route to the peer.
    Unaddressable,
    /// A connection has these ends.
    InUse,
    /// There are [`TcpConfig::connections`](crate::iface::TcpConfig::connections), or there is no memory.
    Exhausted,
    /// [`TcpConfig::secrets`](crate::iface::TcpConfig::secrets) isn't set, and there is no feature `std`.
    NoSecrets,
}

impl fmt::Display for ConnectError {
    fn fmt(&self, f: &mut fmt::Formatter<'_>) -> fmt::Result {
        f.write_str(match self {
            ConnectError::InvalidState => "invalid state",
            ConnectError::Unaddressable => "unaddressable destination",
            ConnectError::InUse => "in use",
            ConnectError::Exhausted => "exhausted",
            ConnectError::NoSecrets => "no secrets",
        })
    }
}

impl core::error::Error for ConnectError {}

impl From<Error> for ConnectError {
    fn from(error: Error) -> ConnectError {
        match error {
            Error::BadPort | Error::BadAddress | Error::NotThere | Error::NoRoute => ConnectError::Unaddressable,
            Error::InUse => ConnectError::InUse,
            Error::NoSecrets => ConnectError::NoSecrets,
            _ => ConnectError::Exhausted,
        }
    }
}

/// Why nothing is sent.
#[derive(Clone, Copy, Debug, PartialEq, Eq)]
pub enum SendError {
    /// There is no connection, or the socket was closed.
    InvalidState,
}

impl fmt::Display for SendError {
    fn fmt(&self, f: &mut fmt::Formatter<'_>) -> fmt::Result {
        f.write_str("invalid state")
    }
}

impl core::error::Error for SendError {}

/// Why nothing is received.
#[derive(Clone, Copy, Debug, PartialEq, Eq)]
pub enum RecvError {
    /// There is no connection, or it was cut.
    InvalidState,
    /// The peer closed, and all was read.
    Finished,
}

impl fmt::Display for RecvError {
    fn fmt(&self, f: &mut fmt::Formatter<'_>) -> fmt::Result {
        f.write_str(match self {
            RecvError::InvalidState => "invalid state",
            RecvError::Finished => "operation finished",
        })
    }
}

impl core::error::Error for RecvError {}

/// Makes a socket listen at a host.
type Begin = fn(&Shared, IpListenEndpoint, Options) -> Result<usize, Error>;

fn begin_listening(host: &Shared, at: IpListenEndpoint, options: Options) -> Result<usize, Error> {
    host.whole(|inner| table_of(inner)?.0.listen(at, options))
}

/// A TCP socket.
///
/// One that listens becomes the connection of the first peer whose handshake is complete. Where several listen at a port,
/// as many peers are served at once. One more waits for a second until a socket that listened there does it again, and then
/// is reset. Where none listened, or all are closed and gone, a peer is reset at once.
#[derive(Debug)]
pub struct Socket<'a> {
    place: Place,
    /// While it listens and isn't at a host: what makes it listen there. No other call reaches the library's from a program
    /// that never listens.
    begin: Option<Begin>,
    listen_endpoint: IpListenEndpoint,
    rx: usize,
    tx: usize,
    options: Options,
    /// Where octets are that are lent.
    buffer: Vec<u8>,
    #[cfg(feature = "async")]
    wakers: Wakers,
    lifetime: PhantomData<&'a mut [u8]>,
}

/// Where a socket is: of no lifetime, so that storage may lend a set what it is dropped with.
#[derive(Debug, Default)]
struct Place {
    host: Option<Shared>,
    /// What names it at the host, while it listens or has a connection.
    index: Option<usize>,
}

impl Place {
    /// Has nothing at its host any more.
    fn let_go(&mut self) {
        if let (Some(host), Some(index)) = (&self.host, self.index.take()) {
            host.whole(|inner| {
                if let Some(tcp) = &mut inner.tcp {
                    tcp.remove(index);
                }
            });
        }
    }
}

impl Drop for Place {
    fn drop(&mut self) {
        self.let_go();
    }
}

/// The tasks to be woken, and what they have seen.
#[cfg(feature = "async")]
#[derive(Debug, Default)]
struct Wakers {
    tasks: super::Wakers,
    recv_state: Option<State>,
    send_state: Option<State>,
    unacknowledged: usize,
}

impl<'a> super::AnySocket<'a> for Socket<'a> {
    fn upcast(self) -> super::Socket<'a> {
        super::Socket::Tcp(self)
    }

    fn downcast<'c>(socket: &'c super::Socket<'a>) -> Option<&'c Socket<'a>> {
        if let super::Socket::Tcp(socket) = socket { Some(socket) } else { None }
    }

    fn downcast_mut<'c>(socket: &'c mut super::Socket<'a>) -> Option<&'c mut Socket<'a>> {
        if let super::Socket::Tcp(socket) = socket { Some(socket) } else { None }
    }
}

/// Whether octets come in a state, or may still be read.
fn may_recv(look: &Look) -> bool {
    matches!(look.state, State::Established | State::FinWait1 | State::FinWait2) || look.readable > 0
}

fn is_open(state: State) -> bool {
    !matches!(state, State::Closed | State::TimeWait)
}

impl<'a> Socket<'a> {
    /// A socket that is closed, with so much room for what comes and what goes.
    pub fn new<T: Into<SocketBuffer<'a>>>(rx_buffer: T, tx_buffer: T) -> Socket<'a> {
        Socket {
            place: Place::default(),
            begin: None,
            listen_endpoint: IpListenEndpoint::default(),
            rx: rx_buffer.into().octets,
            tx: tx_buffer.into().octets,
            options: Options::USUAL,
            buffer: Vec::new(),
            #[cfg(feature = "async")]
            wakers: Wakers::default(),
            lifetime: PhantomData,
        }
    }

    /// Comes to a host, whose connections will have room for as much as it has.
    fn join(&mut self, host: &Shared) {
        host.whole(|inner| {
            inner.tcp_sockets = inner.tcp_sockets.saturating_add(1);
            inner.tcp_rooms = (inner.tcp_rooms.0.max(self.tx), inner.tcp_rooms.1.max(self.rx));
        });
        self.place.host = Some(host.clone());
    }

    pub(crate) fn attach(&mut self, host: &Shared) -> Result<(), Error> {
        if self.place.host.as_ref().is_some_and(|own| own.is(host)) {
            return Ok(());
        }
        if self.state() != State::Closed && self.begin.is_none() {
            return Err(Error::BadArgument);
        }
        self.place.let_go();
        self.join(host);
        if let Some(begin) = self.begin {
            self.place.index =
                Some(begin(host, self.listen_endpoint, self.options).inspect_err(|_| self.place.host = None)?);
            self.begin = None;
        }
        Ok(())
    }

    /// Forgets its last connection, one in TIME-WAIT too.
    fn reset(&mut self) {
        self.call(|table, index| table.abort(index));
        self.place.let_go();
        self.begin = None;
        self.listen_endpoint = IpListenEndpoint::default();
    }

    /// Calls the connections of its host, if it listens or has one there.
    fn call<R>(&self, f: impl FnOnce(&mut Table, usize) -> R) -> Option<R> {
        let (host, index) = (self.place.host.as_ref()?, self.place.index?);
        host.whole(|inner| Some(f(inner.tcp.as_mut()?.table(), index)))
    }

    fn look(&self) -> Look {
        let found = match (&self.place.host, self.place.index) {
            (Some(host), Some(index)) => host.whole(|inner| Some(inner.tcp.as_mut()?.look(index))),
            _ => None,
        };
        found.unwrap_or_else(|| Look::of(if self.begin.is_some() { State::Listen } else { State::Closed }))
    }

    /// Starts listening at a port of one own address, or of any, which 0.0.0.0 and :: are too. Nothing, if it listens
    /// there. A connection in TIME-WAIT is forgotten.
    ///
    /// # Errors
    /// [`ListenError`].
    pub fn listen<T: Into<IpListenEndpoint>>(&mut self, local_endpoint: T) -> Result<(), ListenError> {
        let mut local: IpListenEndpoint = local_endpoint.into();
        local.addr = local.addr.filter(|addr| !addr.is_unspecified());
        if local.port == 0 || local.addr.is_some_and(|addr| addr.is_multicast() || addr.is_broadcast()) {
            return Err(ListenError::Unaddressable);
        }
        match self.state() {
            State::Listen if self.listen_endpoint == local => return Ok(()),
            state if is_open(state) => return Err(ListenError::InvalidState),
            _ => {}
        }
        let index = match &self.place.host {
            Some(host) => Some(begin_listening(host, local, self.options)?),
            None => None,
        };
        self.reset();
        self.place.index = index;
        self.begin = if index.is_none() { Some(begin_listening) } else { None };
        self.listen_endpoint = local;
        self.wake_all();
        Ok(())
    }

    /// Connects to a peer, by the context of the interface. The own port is one that the program chooses, as a random one
    /// from 49152 on; without an own address it is the one that packets to the peer are sent from. The handshake begins with
    /// the next poll. A connection in TIME-WAIT is forgotten.
    ///
    /// # Errors
    /// [`ConnectError`].
    ///
    /// # Panics
    /// If the context is another interface's than the one of its set.
    pub fn connect<T, U>(&mut self, cx: &mut Context, remote_endpoint: T, local_endpoint: U) -> Result<(), ConnectError>
    where
        T: Into<IpEndpoint>,
        U: Into<IpListenEndpoint>,
    {
        let (remote, local): (IpEndpoint, IpListenEndpoint) = (remote_endpoint.into(), local_endpoint.into());
        if is_open(self.state()) {
            return Err(ConnectError::InvalidState);
        }
        let is_local_none = local.port == 0 || local.addr.is_some_and(|addr| addr.is_unspecified());
        if remote.port == 0 || remote.addr.is_unspecified() || is_local_none {
            return Err(ConnectError::Unaddressable);
        }
        match &self.place.host {
            Some(host) => assert!(host.is(&cx.0), "the context is another interface's"),
            None => self.join(&cx.0),
        }
        self.reset();
        self.place.index = Some(cx.0.whole(|inner| {
            let (now, options) = (inner.now, self.options);
            let (table, host) = table_of(inner)?;
            table.connect(host, now, (local, remote), options)
        })?);
        self.wake_all();
        Ok(())
    }

    /// Closes its half: the end follows what was written, and it still receives. One that listens is closed, and so is one
    /// whose handshake isn't complete.
    pub fn close(&mut self) {
        self.end(Table::close);
    }

    /// Closes it at once. A peer gets a reset.
    pub fn abort(&mut self) {
        self.end(Table::abort);
    }

    /// Ends its connection by a call, or stops listening.
    fn end(&mut self, end: fn(&mut Table, usize)) {
        self.begin = None;
        if self.is_listening() {
            self.place.let_go();
        }
        self.call(end);
        self.wake_all();
    }

    /// Its state.
    #[inline]
    pub fn state(&self) -> State {
        self.look().state
    }

    /// Whether it listens.
    pub fn is_listening(&self) -> bool {
        self.state() == State::Listen
    }

    /// Whether it listens or has a connection, but one in TIME-WAIT.
    pub fn is_open(&self) -> bool {
        is_open(self.state())
    }

    /// Whether it has a connection, but one in TIME-WAIT.
    pub fn is_active(&self) -> bool {
        let state = self.state();
        is_open(state) && state != State::Listen
    }

    /// Whether its half is open: what is written will be sent.
    pub fn may_send(&self) -> bool {
        may_send(self.state())
    }

    /// Whether the peer's half is open, or there are octets to be read.
    pub fn may_recv(&self) -> bool {
        may_recv(&self.look())
    }

    /// Whether an octet can be written now.
    pub fn can_send(&self) -> bool {
        let look = self.look();
        may_send(look.state) && look.writable > 0
    }

    /// Whether there are octets to be read.
    pub fn can_recv(&self) -> bool {
        self.look().readable > 0
    }

    /// How many octets that aren't acknowledged it holds at most.
    pub fn send_capacity(&self) -> usize {
        self.rooms().map_or(self.tx, |rooms| rooms.0)
    }

    /// How many octets that aren't read it holds at most.
    pub fn recv_capacity(&self) -> usize {
        self.rooms().map_or(self.rx, |rooms| rooms.1)
    }

    fn rooms(&self) -> Option<(usize, usize)> {
        self.place.host.as_ref()?.whole(|inner| Some(inner.tcp.as_mut()?.table().rooms()))
    }

    /// How many octets aren't acknowledged. Once it is closed, as many as there were then, until all are.
    pub fn send_queue(&self) -> usize {
        self.look().unacknowledged
    }

    /// How many octets can be read.
    pub fn recv_queue(&self) -> usize {
        self.look().readable
    }

    /// Where it listens, or listened last for the connection that it has.
    pub fn listen_endpoint(&self) -> IpListenEndpoint {
        self.listen_endpoint
    }

    /// The own end of its connection.
    pub fn local_endpoint(&self) -> Option<IpEndpoint> {
        self.call(|table, index| table.ends(index).ok())?.map(|ends| ends.0)
    }

    /// The peer's end of its connection.
    pub fn remote_endpoint(&self) -> Option<IpEndpoint> {
        self.call(|table, index| table.ends(index).ok())?.map(|ends| ends.1)
    }

    /// Queues as many of the octets as there is room for, and returns how many.
    ///
    /// # Errors
    /// [`SendError::InvalidState`] if [`may_send`](Socket::may_send) is `false`.
    pub fn send_slice(&mut self, data: &[u8]) -> Result<usize, SendError> {
        if !self.may_send() {
            return Err(SendError::InvalidState);
        }
        let sent = self.call(|table, index| table.send(index, data).ok()).flatten();
        self.note_sent();
        sent.ok_or(SendError::InvalidState)
    }

    /// Queues the octets that `f` writes to the front of a buffer, which is as long as there is room. `f` returns how many
    /// it wrote, and what this returns.
    ///
    /// # Errors
    /// [`SendError::InvalidState`] if [`may_send`](Socket::may_send) is `false`: then `f` isn't called.
    ///
    /// # Panics
    /// If `f` says that it wrote more than the buffer has.
    pub fn send<F, R>(&mut self, f: F) -> Result<R, SendError>
    where
        F: FnOnce(&mut [u8]) -> (usize, R),
    {
        let look = self.look();
        if !may_send(look.state) {
            return Err(SendError::InvalidState);
        }
        self.reserve(look.writable);
        let (size, result) = f(&mut self.buffer[..look.writable]);
        let octets = &self.buffer[..look.writable][..size];
        self.call(|table, index| table.send(index, octets));
        self.note_sent();
        Ok(result)
    }

    /// Makes the buffer for what is lent so long, if it is shorter.
    fn reserve(&mut self, octets: usize) {
        if self.buffer.len() < octets {
            self.buffer.resize(octets, 0);
        }
    }

    fn look_to_recv(&self) -> Result<Look, RecvError> {
        let look = self.look();
        match may_recv(&look) {
            true => Ok(look),
            false if look.is_finished => Err(RecvError::Finished),
            false => Err(RecvError::InvalidState),
        }
    }

    /// Takes as many octets as came and there is room for, and returns how many.
    ///
    /// # Errors
    /// [`RecvError`], if [`may_recv`](Socket::may_recv) is `false`.
    pub fn recv_slice(&mut self, data: &mut [u8]) -> Result<usize, RecvError> {
        self.look_to_recv()?;
        let taken = self.call(|table, index| table.receive(index, data).ok()).flatten();
        taken.ok_or(RecvError::InvalidState)
    }

    /// Lends the octets that came to `f`, which returns how many of them it took, and what this returns.
    ///
    /// # Errors
    /// [`RecvError`], if [`may_recv`](Socket::may_recv) is `false`: then `f` isn't called.
    ///
    /// # Panics
    /// If `f` says that it took more than there are.
    pub fn recv<'b, F, R>(&'b mut self, f: F) -> Result<R, RecvError>
    where
        F: FnOnce(&'b mut [u8]) -> (usize, R),
    {
        let count = self.lend(usize::MAX)?;
        let Socket { place: Place { host, index }, buffer, .. } = self;
        let (size, result) = f(&mut buffer[..count]);
        assert!(size <= count, "more was taken than there is");
        if let (Some(host), Some(index)) = (host, *index) {
            // It is refused only if the name names nothing.
            let _ = host.whole(|inner| inner.tcp.as_mut().map(|tcp| tcp.table().skip(index, size)));
        }
        Ok(result)
    }

    /// Has octets that came in the buffer, so many at most, which stay, and returns how many.
    fn lend(&mut self, most: usize) -> Result<usize, RecvError> {
        let count = self.look_to_recv()?.readable.min(most);
        self.reserve(count);
        let mut buffer = core::mem::take(&mut self.buffer);
        let there = self.call(|table, index| table.peek(index, &mut buffer[..count]).ok()).flatten();
        self.buffer = buffer;
        there.ok_or(RecvError::InvalidState)
    }

    /// The first octets that came, so many at most, which stay.
    ///
    /// # Errors
    /// [`RecvError`], if [`may_recv`](Socket::may_recv) is `false`.
    pub fn peek(&mut self, size: usize) -> Result<&[u8], RecvError> {
        let count = self.lend(size)?;
        Ok(&self.buffer[..count])
    }

    /// Copies as many octets as came and there is room for, which stay, and returns how many.
    ///
    /// # Errors
    /// [`RecvError`], if [`may_recv`](Socket::may_recv) is `false`.
    pub fn peek_slice(&mut self, data: &mut [u8]) -> Result<usize, RecvError> {
        self.look_to_recv()?;
        let there = self.call(|table, index| table.peek(index, data).ok()).flatten();
        there.ok_or(RecvError::InvalidState)
    }

    fn set(&mut self, change: impl FnOnce(&mut Options)) {
        change(&mut self.options);
        let options = self.options;
        self.call(|table, index| table.set_options(index, options));
    }

    /// How long what was sent may stay unacknowledged. `None`: twelve tries.
    pub fn timeout(&self) -> Option<Duration> {
        self.options.timeout
    }

    /// Sets how long what was sent may stay unacknowledged. `None`: twelve tries. Such a setting stays when the socket is
    /// closed.
    pub fn set_timeout(&mut self, duration: Option<Duration>) {
        self.set(|options| options.timeout = duration);
    }

    /// How long nothing arrives before the peer is probed. `None`: it never is.
    pub fn keep_alive(&self) -> Option<Duration> {
        self.options.keep_alive
    }

    /// Sets how long nothing arrives before the peer is probed. `None`: it never is.
    pub fn set_keep_alive(&mut self, interval: Option<Duration>) {
        self.set(|options| options.keep_alive = interval);
    }

    /// How long an acknowledgement of octets in order may wait. `None`: it doesn't.
    pub fn ack_delay(&self) -> Option<Duration> {
        self.options.ack_delay
    }

    /// Sets how long an acknowledgement of octets in order may wait: 10 milliseconds at first. `None`: it doesn't.
    pub fn set_ack_delay(&mut self, duration: Option<Duration>) {
        self.set(|options| options.ack_delay = duration);
    }

    /// Whether short segments wait while something is unacknowledged (RFC 9293, 3.7.4).
    pub fn nagle_enabled(&self) -> bool {
        self.options.is_nagle
    }

    /// Sets whether short segments wait while something is unacknowledged: they do at first.
    pub fn set_nagle_enabled(&mut self, enabled: bool) {
        self.set(|options| options.is_nagle = enabled);
    }

    /// The hop limit that was set. `None`: 64.
    pub fn hop_limit(&self) -> Option<u8> {
        self.options.hop_limit
    }

    /// Sets the hop limit (over IPv4 the time to live) of the packets that it sends from now on. `None`: 64. Until a socket that
    /// listens has its connection, what is sent of the handshake has 64. It stays when the socket is closed.
    ///
    /// # Panics
    /// If it is 0 (RFC 1122, 3.2.1.7), as smoltcp's.
    pub fn set_hop_limit(&mut self, hop_limit: Option<u8>) {
        assert!(hop_limit != Some(0), "a hop limit of 0");
        self.set(|options| options.hop_limit = hop_limit);
    }

    /// Wakes both tasks.
    fn wake_all(&mut self) {
        #[cfg(feature = "async")]
        self.wakers.tasks.wake();
    }

    /// The task that waits for room has seen what is queued now.
    fn note_sent(&mut self) {
        #[cfg(feature = "async")]
        {
            self.wakers.unacknowledged = self.look().unacknowledged;
        }
    }
}

/// Queues a text. It fails where there isn't room for all of it: then what there was room for is queued.
impl fmt::Write for Socket<'_> {
    fn write_str(&mut self, text: &str) -> fmt::Result {
        if self.send_slice(text.as_bytes()) == Ok(text.len()) { Ok(()) } else { Err(fmt::Error) }
    }
}

#[cfg(feature = "async")]
impl Socket<'_> {
    /// Sets the task that is woken when octets have come, or the state has changed: by the interface's polls,
    /// [`receive_frame`](crate::iface::Interface::receive_frame) and [`next_frame`](crate::iface::Interface::next_frame), and
    /// by calls of this socket. It is woken once, and may be in vain; one that was set before isn't woken any more.
    pub fn register_recv_waker(&mut self, waker: &core::task::Waker) {
        self.wakers.tasks.recv = Some(waker.clone());
        self.wakers.recv_state = Some(self.state());
    }

    /// Sets the task that is woken when octets were acknowledged, or the state has changed: as
    /// [`register_recv_waker`](Socket::register_recv_waker) does.
    pub fn register_send_waker(&mut self, waker: &core::task::Waker) {
        let look = self.look();
        self.wakers.tasks.send = Some(waker.clone());
        self.wakers.send_state = Some(look.state);
        self.wakers.unacknowledged = look.unacknowledged;
    }

    pub(crate) fn wake(&mut self) {
        if self.wakers.tasks.recv.is_none() && self.wakers.tasks.send.is_none() {
            return;
        }
        let look = self.look();
        let state = Some(look.state);
        if look.readable > 0 || self.wakers.recv_state != state {
            self.wakers.tasks.recv.take().into_iter().for_each(core::task::Waker::wake);
        }
        if look.unacknowledged < self.wakers.unacknowledged || self.wakers.send_state != state {
            self.wakers.tasks.send.take().into_iter().for_each(core::task::Waker::wake);
        }
    }
}
