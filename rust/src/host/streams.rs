//! Connections of TCP of a host (RFC 9293): the library's calls, as safe methods.
//!
//! What `iface.h` asks of its caller is kept as for a host: `raw` is private and neither `Copy` nor `Clone`, [`Streams::new`]
//! alone makes one, each method takes `&mut self`, and pointers and lengths are those of references and slices. Another host
//! than the one that they were made for is a use that makes no sense, but nothing undefined: the library's calls take any,
//! and look sockets up by their numbers.
use super::{Configured, Error, Host, answer, end_from_c, end_to_c, listen_to_c, until_from_c};
use crate::sys;
use crate::time::{Duration, Instant};
use crate::wire::{IpEndpoint, IpListenEndpoint};
use core::fmt;

/// Two secrets of random octets, another pair for each start.
#[derive(Clone, Copy, PartialEq, Eq)]
pub struct Secrets {
    /// That by which initial numbers can't be guessed (RFC 6528, 3).
    pub number_key: [u8; 32],
    /// That by which nobody chooses ends that are slow to find.
    pub table_key: [u64; 2],
}

impl fmt::Debug for Secrets {
    fn fmt(&self, f: &mut fmt::Formatter<'_>) -> fmt::Result {
        f.write_str("Secrets")
    }
}

#[cfg(feature = "std")]
impl Secrets {
    /// Secrets from the operating system's random numbers, as `std` has them for its hash maps.
    ///
    /// ```
    /// assert!(fumitorygate::Secrets::random() != fumitorygate::Secrets::random());
    /// ```
    pub fn random() -> Secrets {
        use std::hash::{BuildHasher, RandomState};
        let words: [u64; 6] = core::array::from_fn(|place| RandomState::new().hash_one(place));
        let [a, b, c, d, table_key @ ..] = words;
        let mut number_key = [0; 32];
        for (octets, word) in number_key.chunks_exact_mut(8).zip([a, b, c, d]) {
            octets.copy_from_slice(&word.to_ne_bytes());
        }
        Secrets { number_key, table_key }
    }
}

/// How connections are to be made: [`StreamSettings::new`] has what most programs want.
#[derive(Clone, Copy, Debug, PartialEq, Eq)]
#[non_exhaustive]
pub struct StreamSettings {
    /// How long nothing arrives before a peer is probed. `None`: it never is.
    pub keep_alive: Option<Duration>,
    /// The same for a peer that asked for the connection.
    pub accepted_keep_alive: Option<Duration>,
    /// How long what was sent may stay unacknowledged. `None`: twelve tries.
    pub timeout: Option<Duration>,
    /// How long an acknowledgement of octets in order may wait.
    pub ack_delay: Duration,
    /// The shortest time after which something is sent again.
    pub shortest_timeout: Duration,
    /// How long TIME-WAIT lasts.
    pub time_wait: Duration,
    /// How long a connection may go on that was released, before it ends in a reset, whatever its peer does.
    pub release_timeout: Duration,
    /// How many connections there are at most, from 1 to 2^30.
    pub places: u32,
    /// How many octets each may hold that aren't acknowledged, at most 2^30.
    pub send_room: u32,
    /// How many octets each may hold that aren't read, at most 2^30.
    pub receive_room: u32,
    /// How many packets wait between the connections and the host, each way and family.
    pub packets: u32,
    /// How many octets they have together.
    pub packet_octets: u32,
    /// How many octets packets have together that wait for peers that haven't answered.
    pub far_octets: u32,
    /// Whether they go over IPv4.
    pub ipv4: bool,
    /// Whether they go over IPv6.
    pub ipv6: bool,
    /// Whether short segments wait while something is unacknowledged.
    pub nagle: bool,
    /// Whether a congestion window narrows what is sent.
    pub congestion_control: bool,
}

impl Default for StreamSettings {
    fn default() -> StreamSettings {
        StreamSettings::new()
    }
}

impl StreamSettings {
    /// What `iface_streams_config_init` writes: over both families, 8 connections of 4,096 octets each way, probes after two
    /// minutes of peers that asked for the connection, twelve tries, acknowledgements that wait 10 milliseconds, 200 milliseconds before something is
    /// sent again, 60 seconds of TIME-WAIT, and two minutes for a connection that was released.
    pub fn new() -> StreamSettings {
        let config = sys::iface_streams_config {
            number_key: [0; 32],
            table_key: [0; 2],
            keep_alive: 0,
            accepted_keep_alive: 0,
            timeout: 0,
            ack_delay: 0,
            shortest_timeout: 0,
            time_wait: 0,
            release_timeout: 0,
            places: 0,
            send_room: 0,
            receive_room: 0,
            packets: 0,
            packet_octets: 0,
            far_octets: 0,
            ipv4: 0,
            ipv6: 0,
            nagle: 0,
            congestion_control: 0,
        };
        let mut configured = Configured { config, room: [0; 50] };
        // SAFETY: the pointer is that of a reference to a whole configuration, and to 400 octets behind it, which may
        // be written.
        unsafe { sys::iface_streams_config_init((&raw mut configured).cast()) };
        let config = configured.config;
        StreamSettings {
            keep_alive: (config.keep_alive != 0).then(|| Duration::from_micros(config.keep_alive)),
            accepted_keep_alive: (config.accepted_keep_alive != 0)
                .then(|| Duration::from_micros(config.accepted_keep_alive)),
            timeout: (config.timeout != 0).then(|| Duration::from_micros(config.timeout)),
            ack_delay: Duration::from_micros(config.ack_delay),
            shortest_timeout: Duration::from_micros(config.shortest_timeout),
            time_wait: Duration::from_micros(config.time_wait),
            release_timeout: Duration::from_micros(config.release_timeout),
            places: config.places,
            send_room: config.send_room,
            receive_room: config.receive_room,
            packets: config.packets,
            packet_octets: config.packet_octets,
            far_octets: config.far_octets,
            ipv4: config.ipv4 != 0,
            ipv6: config.ipv6 != 0,
            nagle: config.nagle != 0,
            congestion_control: config.congestion_control != 0,
        }
    }

    fn to_c(self, secrets: &Secrets) -> sys::iface_streams_config {
        sys::iface_streams_config {
            number_key: secrets.number_key,
            table_key: secrets.table_key,
            keep_alive: micros(self.keep_alive),
            accepted_keep_alive: micros(self.accepted_keep_alive),
            timeout: micros(self.timeout),
            ack_delay: self.ack_delay.total_micros(),
            shortest_timeout: self.shortest_timeout.total_micros(),
            time_wait: self.time_wait.total_micros(),
            release_timeout: self.release_timeout.total_micros(),
            places: self.places,
            send_room: self.send_room,
            receive_room: self.receive_room,
            packets: self.packets,
            packet_octets: self.packet_octets,
            far_octets: self.far_octets,
            ipv4: u8::from(self.ipv4),
            ipv6: u8::from(self.ipv6),
            nagle: u8::from(self.nagle),
            congestion_control: u8::from(self.congestion_control),
        }
    }
}

/// A time of which 0 stands for none.
fn micros(time: Option<Duration>) -> u64 {
    time.map_or(0, |time| time.total_micros())
}

/// The name of a connection. Once the program has released it, it names nothing.
#[derive(Clone, Copy, Debug, PartialEq, Eq, Hash)]
pub struct Stream {
    place: usize,
    generation: u64,
}

impl Stream {
    /// What stands where the library is to write a name.
    const NONE: sys::iface_stream = sys::iface_stream { place: 0, generation: 0 };

    fn to_c(self) -> sys::iface_stream {
        sys::iface_stream { place: self.place, generation: self.generation }
    }

    fn from_c(name: &sys::iface_stream) -> Stream {
        Stream { place: name.place, generation: name.generation }
    }
}

/// The state of a connection (RFC 9293, 3.3.2).
#[derive(Clone, Copy, Debug, PartialEq, Eq)]
pub enum StreamState {
    /// It is gone, or there was none.
    Closed,
    /// A socket listens.
    Listen,
    /// A SYN was sent.
    SynSent,
    /// A SYN came, and was answered.
    SynReceived,
    /// Octets go both ways.
    Established,
    /// The own end was sent.
    FinWait1,
    /// The own end was acknowledged.
    FinWait2,
    /// The peer's end came.
    CloseWait,
    /// Both ends were sent, and the own one isn't acknowledged.
    Closing,
    /// The peer's end came, and the own one was sent.
    LastAck,
    /// Both ends were acknowledged. It waits for segments that are late.
    TimeWait,
}

impl StreamState {
    fn from_c(number: u32) -> StreamState {
        match number {
            sys::IFACE_LISTEN => StreamState::Listen,
            sys::IFACE_SYN_SENT => StreamState::SynSent,
            sys::IFACE_SYN_RECEIVED => StreamState::SynReceived,
            sys::IFACE_ESTABLISHED => StreamState::Established,
            sys::IFACE_FIN_WAIT_1 => StreamState::FinWait1,
            sys::IFACE_FIN_WAIT_2 => StreamState::FinWait2,
            sys::IFACE_CLOSE_WAIT => StreamState::CloseWait,
            sys::IFACE_CLOSING => StreamState::Closing,
            sys::IFACE_LAST_ACK => StreamState::LastAck,
            sys::IFACE_TIME_WAIT => StreamState::TimeWait,
            _ => StreamState::Closed,
        }
    }
}

impl fmt::Display for StreamState {
    fn fmt(&self, f: &mut fmt::Formatter<'_>) -> fmt::Result {
        f.write_str(match self {
            StreamState::Closed => "CLOSED",
            StreamState::Listen => "LISTEN",
            StreamState::SynSent => "SYN-SENT",
            StreamState::SynReceived => "SYN-RECEIVED",
            StreamState::Established => "ESTABLISHED",
            StreamState::FinWait1 => "FIN-WAIT-1",
            StreamState::FinWait2 => "FIN-WAIT-2",
            StreamState::CloseWait => "CLOSE-WAIT",
            StreamState::Closing => "CLOSING",
            StreamState::LastAck => "LAST-ACK",
            StreamState::TimeWait => "TIME-WAIT",
        })
    }
}

/// Why a connection ended before both sides had closed.
#[derive(Clone, Copy, Debug, PartialEq, Eq)]
#[non_exhaustive]
pub enum StreamEnding {
    /// The peer sent a reset.
    ByPeer,
    /// The peer answered the SYN by a reset.
    Refused,
    /// What was sent stayed unacknowledged, or the peer didn't answer probes.
    TimedOut,
    /// The program aborted, or the own address is gone.
    Aborted,
    /// The peer can't be reached: its neighbour doesn't answer, or a message of ICMP says so while the connection is being opened,
    /// or one did after which nothing came until it timed out.
    Unreachable,
}

/// Connections of TCP of a host (RFC 9293). They listen, connect, send again what was lost, and keep what came until it is
/// read.
///
/// [`poll`](Streams::poll) is called after each frame that the host takes, after calls that write, close or abort, and at the
/// instant of [`poll_at`](Streams::poll_at); and then [`Host::next`].
///
/// ```
/// # fn main() -> Result<(), fumitorygate::Error> {
/// use fumitorygate::{Host, Secrets, Settings, StreamSettings, Streams, time::Instant, wire::HardwareAddress};
///
/// let now = Instant::ZERO;
/// let mut settings = Settings::new(HardwareAddress::Ip);
/// settings.frame_len = 1500;
/// let mut host = Host::new(&settings)?;
/// host.add_address("192.168.69.1/24".parse().unwrap())?;
/// # let random = Secrets { number_key: [1; 32], table_key: [2, 3] };
/// let mut tcp = Streams::new(&mut host, &StreamSettings::new(), &random)?;
/// let listener = tcp.listen(7.into(), 4)?;
///
/// // After each frame that came:
/// tcp.poll(&mut host, now)?;
/// while let Ok(stream) = tcp.accept(listener) {
///     tcp.send(stream, b"hello")?;
/// }
/// tcp.poll(&mut host, now)?;
/// # Ok(())
/// # }
/// ```
///
/// As a host they are neither shared nor copied:
///
/// ```compile_fail,E0277
/// fn shared<T: Sync>() {}
/// shared::<fumitorygate::Streams>();
/// ```
///
/// ```compile_fail,E0382
/// fn twice(tcp: fumitorygate::Streams) -> [fumitorygate::Streams; 2] {
///     [tcp, tcp]
/// }
/// ```
///
/// ```
/// fn crosses<T: Send>() {}
/// crosses::<fumitorygate::Streams>();
/// ```
#[derive(Debug)]
pub struct Streams {
    raw: sys::iface_streams,
}

// SAFETY: `iface.h` says that a handle of connections is kept as that of a host: each call may be in another thread. No
// method takes `&self`.
unsafe impl Send for Streams {}

impl Drop for Streams {
    fn drop(&mut self) {
        let mut none = sys::iface::NONE;
        // SAFETY: `raw` is a handle of the library's, as each call leaves it, and isn't used after this. The other one
        // owns no host.
        let _ = unsafe { sys::iface_streams_free(&mut self.raw, &mut none) };
    }
}

impl Streams {
    /// Makes connections for a host, and opens two sockets of it for each family, which aren't to be closed. While they
    /// are there each segment that belongs to no connection is answered by a reset, also one that comes to a socket of
    /// [`Host::tcp_open`].
    ///
    /// # Errors
    /// [`Error::BadArgument`] if a number is out of range, there is neither family, or a secret is all zeros; [`Error::TableFull`] if the host
    /// has no places for the sockets; [`Error::NoMemory`].
    pub fn new(host: &mut Host, settings: &StreamSettings, secrets: &Secrets) -> Result<Streams, Error> {
        let mut streams = Streams { raw: sys::iface_streams::NONE };
        call!(streams.iface_streams_new(&mut host.raw, &settings.to_c(secrets)))?;
        Ok(streams)
    }

    /// Frees all connections without a word to their peers, and closes their sockets at the host. Where it is just
    /// dropped, the sockets stay open.
    pub fn free(mut self, host: &mut Host) {
        // It is refused only without connections.
        let _ = call!(self.iface_streams_free(&mut host.raw));
    }

    /// Does what is due: the connections take what came, and what they send is queued.
    ///
    /// # Errors
    /// None that this crate knows of.
    #[inline]
    pub fn poll(&mut self, host: &mut Host, now: Instant) -> Result<(), Error> {
        call!(self.iface_streams_poll(&mut host.raw, now.total_micros()))
    }

    /// The instant at which [`poll`](Streams::poll) is to be called again, if nothing comes before and no call changes a
    /// connection. One that has passed, if something is due at once. `None`, if nothing is.
    #[inline]
    pub fn poll_at(&mut self) -> Option<Instant> {
        let mut at = sys::IFACE_NEVER;
        call!(self.iface_streams_poll_at(&mut at)).ok()?;
        until_from_c(at)
    }

    /// Listens at a port of one own address, or of any, which 0.0.0.0 and :: are too, and returns the listener's number.
    /// At most `backlog` handshakes are under way, and as many connections wait to be accepted; 0 counts as 1. Of listeners
    /// at one port the first one gets the connections.
    ///
    /// # Errors
    /// [`Error::BadPort`], [`Error::BadAddress`] if the address isn't unicast, [`Error::NoMemory`].
    pub fn listen(&mut self, local: IpListenEndpoint, backlog: u32) -> Result<usize, Error> {
        let mut listener = 0;
        call!(self.iface_stream_listen(&listen_to_c(&local), backlog, &mut listener))?;
        Ok(listener)
    }

    /// Takes the connection of a listener that waits longest.
    ///
    /// # Errors
    /// [`Error::Empty`] if none waits, or there is no such listener.
    #[inline]
    pub fn accept(&mut self, listener: usize) -> Result<Stream, Error> {
        let mut name = Stream::NONE;
        call!(self.iface_stream_accept(listener, &mut name))?;
        Ok(Stream::from_c(&name))
    }

    /// Takes a connection at which something changed, by frames and timers, since it was taken so last: octets became readable, room
    /// to write came back, or the state is another one, also where the peer's end came or the connection ended. One that was
    /// accepted counts as changed. Each is taken once until it changes again, and those that changed first come first.
    ///
    /// # Errors
    /// [`Error::Empty`] if none has changed.
    #[inline]
    pub fn changed(&mut self) -> Result<Stream, Error> {
        let mut name = Stream::NONE;
        call!(self.iface_streams_changed(&mut name))?;
        Ok(Stream::from_c(&name))
    }

    /// Closes a listener: a SYN for it is answered by a reset from then on, unless another one listens there. Handshakes under
    /// way end in a reset once they are complete, and connections that wait can still be accepted. Its number is given to no
    /// other listener.
    ///
    /// # Errors
    /// [`Error::NotThere`] if no listener has this number.
    pub fn close_listener(&mut self, listener: usize) -> Result<(), Error> {
        call!(self.iface_stream_close_listener(listener))
    }

    /// Opens a connection to a peer, from a port of one own address, or of the one that [`Host::source_for`] has. The next
    /// [`poll`](Streams::poll) sends the SYN, and [`state`](Streams::state) tells what becomes of it.
    ///
    /// # Errors
    /// [`Error::BadPort`], of the peer too; [`Error::NotThere`] if there is no own address of this family;
    /// [`Error::BadAddress`] if one isn't unicast, or they are of two families; [`Error::NoRoute`] if no network and no route of the
    /// host has the peer; [`Error::InUse`] if a connection has these ends; [`Error::TableFull`] if each place has a connection, and none that was released is in TIME-WAIT.
    pub fn connect(
        &mut self,
        host: &mut Host,
        now: Instant,
        local: IpListenEndpoint,
        remote: IpEndpoint,
    ) -> Result<Stream, Error> {
        let (now, mut name) = (now.total_micros(), Stream::NONE);
        let (local, remote) = (listen_to_c(&local), end_to_c(&remote));
        call!(self.iface_stream_connect(&mut host.raw, now, &local, &remote, &mut name))?;
        Ok(Stream::from_c(&name))
    }

    /// Queues the first octets, as many as there is room for, and returns how many: 0 once the program closed, or the
    /// connection is gone.
    ///
    /// # Errors
    /// [`Error::NoSocket`] if the name names no connection, here and below.
    #[inline]
    pub fn send(&mut self, stream: Stream, octets: &[u8]) -> Result<usize, Error> {
        let mut count = 0;
        call!(self.iface_stream_send(&stream.to_c(), octets.as_ptr(), octets.len(), &mut count))?;
        Ok(count)
    }

    /// Takes the octets that came, in order and as many as there is room for, and returns how many: 0 where none came, and
    /// where no more come, which [`state`](Streams::state) tells apart.
    ///
    /// # Errors
    /// [`Error::NoSocket`].
    #[inline]
    pub fn receive(&mut self, stream: Stream, out: &mut [u8]) -> Result<usize, Error> {
        let mut count = 0;
        call!(self.iface_stream_receive(&stream.to_c(), out.as_mut_ptr(), out.len(), &mut count))?;
        Ok(count)
    }

    /// The same, but the octets stay.
    ///
    /// # Errors
    /// [`Error::NoSocket`].
    #[inline]
    pub fn peek(&mut self, stream: Stream, out: &mut [u8]) -> Result<usize, Error> {
        let mut count = 0;
        call!(self.iface_stream_peek(&stream.to_c(), out.as_mut_ptr(), out.len(), &mut count))?;
        Ok(count)
    }

    /// Closes: the end follows what was written. The program may still read. One whose handshake isn't complete is gone.
    ///
    /// # Errors
    /// [`Error::NoSocket`].
    pub fn close(&mut self, stream: Stream) -> Result<(), Error> {
        call!(self.iface_stream_close(&stream.to_c()))
    }

    /// Aborts: the connection is gone, and a peer that knows of it gets a reset.
    ///
    /// # Errors
    /// [`Error::NoSocket`].
    pub fn abort(&mut self, stream: Stream) -> Result<(), Error> {
        call!(self.iface_stream_abort(&stream.to_c()))
    }

    /// Lets go of a connection: its name names nothing from then on. It is aborted if the peer may still send; else it
    /// ends by itself. Each connection is to be released, also one that is gone.
    ///
    /// # Errors
    /// [`Error::NoSocket`].
    pub fn release(&mut self, stream: Stream) -> Result<(), Error> {
        call!(self.iface_stream_release(&stream.to_c()))
    }

    /// Its state.
    ///
    /// # Errors
    /// [`Error::NoSocket`].
    #[inline]
    pub fn state(&mut self, stream: Stream) -> Result<StreamState, Error> {
        let mut number = 0;
        call!(self.iface_stream_state(&stream.to_c(), &mut number))?;
        Ok(StreamState::from_c(number))
    }

    /// Why it ended before both sides had closed. `None` if it didn't.
    ///
    /// # Errors
    /// [`Error::NoSocket`].
    pub fn ending(&mut self, stream: Stream) -> Result<Option<StreamEnding>, Error> {
        let mut number = 0;
        call!(self.iface_stream_ending(&stream.to_c(), &mut number))?;
        Ok(match number {
            sys::IFACE_BY_PEER => Some(StreamEnding::ByPeer),
            sys::IFACE_REFUSED => Some(StreamEnding::Refused),
            sys::IFACE_TIMED_OUT => Some(StreamEnding::TimedOut),
            sys::IFACE_ABORTED => Some(StreamEnding::Aborted),
            sys::IFACE_UNREACHABLE => Some(StreamEnding::Unreachable),
            _ => None,
        })
    }

    /// Its two ends: the own one, and the peer's.
    ///
    /// # Errors
    /// [`Error::NotThere`] if it has none any more, [`Error::NoSocket`].
    pub fn ends(&mut self, stream: Stream) -> Result<(IpEndpoint, IpEndpoint), Error> {
        let none = sys::iface_endpoint { address: sys::IFACE_ANY, port: 0 };
        let (mut local, mut remote) = (none, none);
        call!(self.iface_stream_ends(&stream.to_c(), &mut local, &mut remote))?;
        Ok((end_from_c(&local), end_from_c(&remote)))
    }

    /// How many octets [`send`](Streams::send) takes now, and how many [`receive`](Streams::receive) writes.
    ///
    /// # Errors
    /// [`Error::NoSocket`].
    #[inline]
    pub fn rooms(&mut self, stream: Stream) -> Result<(usize, usize), Error> {
        let (mut writable, mut readable) = (0, 0);
        call!(self.iface_stream_rooms(&stream.to_c(), &mut writable, &mut readable))?;
        Ok((writable, readable))
    }

    /// Sets whether short segments wait while something is unacknowledged.
    ///
    /// # Errors
    /// [`Error::NoSocket`].
    pub fn set_nagle(&mut self, stream: Stream, on: bool) -> Result<(), Error> {
        call!(self.iface_stream_set_nagle(&stream.to_c(), u8::from(on)))
    }

    /// Sets how long an acknowledgement of octets in order may wait.
    ///
    /// # Errors
    /// [`Error::NoSocket`].
    pub fn set_ack_delay(&mut self, stream: Stream, delay: Duration) -> Result<(), Error> {
        call!(self.iface_stream_set_ack_delay(&stream.to_c(), delay.total_micros()))
    }

    /// Sets how long nothing arrives before the peer is probed. `None`: it never is.
    ///
    /// # Errors
    /// [`Error::NoSocket`].
    pub fn set_keep_alive(&mut self, stream: Stream, interval: Option<Duration>) -> Result<(), Error> {
        call!(self.iface_stream_set_keep_alive(&stream.to_c(), micros(interval)))
    }

    /// Sets how long what was sent may stay unacknowledged. `None`: twelve tries.
    ///
    /// # Errors
    /// [`Error::NoSocket`].
    pub fn set_timeout(&mut self, stream: Stream, timeout: Option<Duration>) -> Result<(), Error> {
        call!(self.iface_stream_set_timeout(&stream.to_c(), micros(timeout)))
    }

    /// Sets how many routers its packets may pass, from the next one on. Each connection begins with 64.
    ///
    /// # Errors
    /// [`Error::BadArgument`] if it is 0; [`Error::NoSocket`].
    pub fn set_hop_limit(&mut self, stream: Stream, hop_limit: u8) -> Result<(), Error> {
        call!(self.iface_stream_set_hop_limit(&stream.to_c(), hop_limit))
    }
}
