//! The connections of an interface, and which socket has which.
use crate::host::{Error, Host, Secrets, Stream, StreamSettings, StreamState, Streams};
use crate::shared::{Connections, Inner, Look, TcpConfig};
use crate::time::{Duration, Instant};
use crate::wire::{IpEndpoint, IpListenEndpoint};
use alloc::boxed::Box;
use alloc::vec::Vec;

/// What a socket chooses for its connections: at first, what smoltcp's has.
#[derive(Clone, Copy, Debug)]
pub(super) struct Options {
    pub(super) timeout: Option<Duration>,
    pub(super) keep_alive: Option<Duration>,
    pub(super) ack_delay: Option<Duration>,
    pub(super) is_nagle: bool,
    pub(super) hop_limit: Option<u8>,
}

impl Options {
    pub(super) const USUAL: Options = Options {
        timeout: None,
        keep_alive: None,
        ack_delay: Some(Duration::from_millis(10)),
        is_nagle: true,
        hop_limit: None,
    };
}

/// How long a peer waits for a socket to listen again, where all that listened at the port have connections.
const PATIENCE: Duration = Duration::from_secs(1);

/// What a socket has.
#[derive(Debug)]
enum Entry {
    /// It listens.
    Listens { at: IpListenEndpoint, options: Options },
    /// It has a connection, which may be gone.
    Has(Connection),
}

#[derive(Debug)]
struct Connection {
    stream: Stream,
    /// Where it listened, if it did.
    came_to: Option<IpListenEndpoint>,
    /// Its state after the last poll.
    state: StreamState,
    /// Whether the peer's end came by then.
    is_finished: bool,
    /// How many octets weren't acknowledged when the program closed: afterwards the library doesn't tell.
    left_at_close: usize,
}

/// The library listens at an end for good: it has no call that ends it.
#[derive(Debug)]
struct Listener {
    at: IpListenEndpoint,
    number: usize,
}

/// A connection for which no socket listens now.
#[derive(Debug)]
struct Waiting {
    stream: Stream,
    local: IpEndpoint,
    until: Instant,
}

/// Connections of TCP of an interface, and the sockets that have them or listen.
#[derive(Debug)]
pub(crate) struct Table {
    streams: Streams,
    send_room: usize,
    receive_room: usize,
    backlog: u32,
    listeners: Vec<Listener>,
    entries: Vec<Option<Entry>>,
    /// Those that came first are first.
    waiting: Vec<Waiting>,
}

/// What the system has, where it has any.
#[cfg(feature = "std")]
fn random() -> Option<Secrets> {
    Some(Secrets::random())
}

#[cfg(not(feature = "std"))]
fn random() -> Option<Secrets> {
    None
}

/// How connections are made for so many sockets, whose longest buffers are `rooms`.
fn settings(config: &TcpConfig, sockets: u32, rooms: (usize, usize)) -> StreamSettings {
    let octets = |room: usize| u32::try_from(room).unwrap_or(u32::MAX);
    let mut settings = StreamSettings::new();
    settings.places = config.connections.unwrap_or_else(|| sockets.saturating_mul(2).max(16));
    settings.send_room = config.send_room.unwrap_or(octets(rooms.0));
    settings.receive_room = config.receive_room.unwrap_or(octets(rooms.1));
    settings.time_wait = config.time_wait.unwrap_or(settings.time_wait);
    settings.shortest_timeout = config.shortest_timeout.unwrap_or(settings.shortest_timeout);
    settings.packet_octets = config.packet_octets.unwrap_or(settings.packet_octets);
    settings.congestion_control = !config.no_congestion_control;
    settings
}

/// The connections of a host, which are made if there are none yet, and the host.
pub(super) fn table_of(inner: &mut Inner) -> Result<(&mut Table, &mut Host), Error> {
    if inner.tcp.is_none() {
        let secrets = inner.config.secrets.or_else(random).ok_or(Error::NoSecrets)?;
        let settings = settings(&inner.config, inner.tcp_sockets, inner.tcp_rooms);
        inner.tcp = Some(Box::new(Table::new(&mut inner.host, &settings, &secrets)?));
    }
    match &mut inner.tcp {
        Some(tcp) => Ok((tcp.table(), &mut inner.host)),
        None => Err(Error::NoMemory),
    }
}

/// Whether the peer's end came, by the state of a connection.
fn is_after_end(state: StreamState) -> bool {
    matches!(state, StreamState::CloseWait | StreamState::Closing | StreamState::LastAck | StreamState::TimeWait)
}

pub(super) fn may_send(state: StreamState) -> bool {
    matches!(state, StreamState::Established | StreamState::CloseWait)
}

/// Whether a listener is for a local end.
fn is_for(at: &IpListenEndpoint, local: &IpEndpoint) -> bool {
    at.port == local.port && at.addr.is_none_or(|addr| addr == local.addr)
}

impl Connection {
    fn new(stream: Stream, came_to: Option<IpListenEndpoint>) -> Connection {
        Connection { stream, came_to, state: StreamState::Closed, is_finished: false, left_at_close: 0 }
    }

    /// Notes its state, and tells whether it is another one.
    fn note(&mut self, streams: &mut Streams) -> bool {
        let state = streams.state(self.stream).unwrap_or(StreamState::Closed);
        let was = core::mem::replace(&mut self.state, state);
        let has_closed = |streams: &mut Streams, stream| streams.ending(stream) == Ok(None);
        // In LAST-ACK and TIME-WAIT it was noted before; by one poll a connection comes from FIN-WAIT to its end, too.
        let comes_of_both = matches!(was, StreamState::FinWait1 | StreamState::FinWait2);
        self.is_finished |=
            is_after_end(state) || (state == StreamState::Closed && comes_of_both && has_closed(streams, self.stream));
        state != was
    }
}

impl Table {
    fn new(host: &mut Host, settings: &StreamSettings, secrets: &Secrets) -> Result<Table, Error> {
        Ok(Table {
            streams: Streams::new(host, settings, secrets)?,
            send_room: settings.send_room as usize,
            receive_room: settings.receive_room as usize,
            // Handshakes leave half of the places to connections.
            backlog: (settings.places / 2).max(1),
            listeners: Vec::new(),
            entries: Vec::new(),
            waiting: Vec::new(),
        })
    }

    pub(super) fn rooms(&self) -> (usize, usize) {
        (self.send_room, self.receive_room)
    }

    fn add(&mut self, entry: Entry) -> usize {
        let index = self.entries.iter().position(Option::is_none).unwrap_or_else(|| {
            self.entries.push(None);
            self.entries.len() - 1
        });
        self.entries[index] = Some(entry);
        index
    }

    /// A socket listens.
    pub(super) fn listen(&mut self, at: IpListenEndpoint, options: Options) -> Result<usize, Error> {
        let covers = |own: &Listener| own.at.port == at.port && (own.at.addr.is_none() || own.at.addr == at.addr);
        if !self.listeners.iter().any(covers) {
            let number = self.streams.listen(at, self.backlog)?;
            self.listeners.push(Listener { at, number });
        }
        Ok(self.add(Entry::Listens { at, options }))
    }

    /// A socket connects.
    pub(super) fn connect(
        &mut self,
        host: &mut Host,
        now: Instant,
        ends: (IpListenEndpoint, IpEndpoint),
        options: Options,
    ) -> Result<usize, Error> {
        let stream = self.streams.connect(host, now, ends.0, ends.1)?;
        self.apply(stream, options);
        let mut connection = Connection::new(stream, None);
        connection.note(&mut self.streams);
        Ok(self.add(Entry::Has(connection)))
    }

    fn apply(&mut self, stream: Stream, options: Options) {
        let streams = &mut self.streams;
        // They are refused only if the name names nothing.
        let _ = streams.set_timeout(stream, options.timeout);
        let _ = streams.set_keep_alive(stream, options.keep_alive);
        let _ = streams.set_ack_delay(stream, options.ack_delay.unwrap_or(Duration::ZERO));
        let _ = streams.set_nagle(stream, options.is_nagle);
        let _ = streams.set_hop_limit(stream, options.hop_limit.unwrap_or(64));
    }

    pub(super) fn set_options(&mut self, index: usize, new: Options) {
        match self.entries.get_mut(index) {
            Some(Some(Entry::Listens { options, .. })) => *options = new,
            Some(Some(Entry::Has(Connection { stream, .. }))) => {
                let stream = *stream;
                self.apply(stream, new);
            }
            _ => {}
        }
    }

    /// A socket's connection, if it has one.
    fn stream(&self, index: usize) -> Result<Stream, Error> {
        match self.entries.get(index) {
            Some(Some(Entry::Has(Connection { stream, .. }))) => Ok(*stream),
            _ => Err(Error::NoSocket),
        }
    }

    pub(super) fn send(&mut self, index: usize, octets: &[u8]) -> Result<usize, Error> {
        let stream = self.stream(index)?;
        self.streams.send(stream, octets)
    }

    pub(super) fn receive(&mut self, index: usize, out: &mut [u8]) -> Result<usize, Error> {
        let stream = self.stream(index)?;
        self.streams.receive(stream, out)
    }

    pub(super) fn peek(&mut self, index: usize, out: &mut [u8]) -> Result<usize, Error> {
        let stream = self.stream(index)?;
        self.streams.peek(stream, out)
    }

    /// Drops the first octets that came, so many at most.
    pub(super) fn skip(&mut self, index: usize, mut count: usize) -> Result<(), Error> {
        let mut out = [0; 256];
        while count > 0 {
            let room = count.min(out.len());
            match self.receive(index, &mut out[..room])? {
                0 => break,
                taken => count -= taken,
            }
        }
        Ok(())
    }

    pub(super) fn ends(&mut self, index: usize) -> Result<(IpEndpoint, IpEndpoint), Error> {
        let stream = self.stream(index)?;
        self.streams.ends(stream)
    }

    /// The program closes a socket's connection.
    pub(super) fn close(&mut self, index: usize) {
        let left = self.look(index).unacknowledged;
        if let Some(Some(Entry::Has(connection))) = self.entries.get_mut(index) {
            connection.left_at_close = left;
            // It is refused only if the name names nothing.
            let _ = self.streams.close(connection.stream);
            connection.note(&mut self.streams);
        }
    }

    /// The program aborts a socket's connection.
    pub(super) fn abort(&mut self, index: usize) {
        if let Some(Some(Entry::Has(connection))) = self.entries.get_mut(index) {
            // It is refused only if the name names nothing.
            let _ = self.streams.abort(connection.stream);
            connection.note(&mut self.streams);
        }
    }

    /// Takes the connections whose handshake is complete. Where no socket has listened for it and isn't closed since, one is
    /// aborted: as smoltcp refuses it.
    fn accept(&mut self, now: Instant) {
        for place in 0..self.listeners.len() {
            while let Ok(stream) = self.streams.accept(self.listeners[place].number) {
                match self.streams.ends(stream) {
                    Ok((local, _)) if self.waiting.len() < self.backlog as usize && self.is_served(&local) => {
                        self.waiting.push(Waiting { stream, local, until: now + PATIENCE });
                    }
                    _ => self.refuse(stream),
                }
            }
        }
    }

    /// Whether a socket listens at a local end, or has a connection that came to there.
    fn is_served(&self, local: &IpEndpoint) -> bool {
        self.entries.iter().flatten().any(|entry| match entry {
            Entry::Listens { at, .. } => is_for(at, local),
            Entry::Has(Connection { came_to, .. }) => came_to.as_ref().is_some_and(|at| is_for(at, local)),
        })
    }

    /// The first socket that listens at a local end.
    fn listens_at(&self, local: &IpEndpoint) -> Option<usize> {
        let listens = |entry: &Option<Entry>| matches!(entry, Some(Entry::Listens { at, .. }) if is_for(at, local));
        self.entries.iter().position(listens)
    }

    fn refuse(&mut self, stream: Stream) {
        // They are refused only if the name names nothing.
        let _ = self.streams.abort(stream);
        let _ = self.streams.release(stream);
    }

    /// Gives connections that wait to sockets that listen, and refuses those that waited for too long. Tells whether a
    /// socket has got one.
    fn give(&mut self, now: Instant) -> bool {
        let mut has_given = false;
        for Waiting { stream, local, until } in core::mem::take(&mut self.waiting) {
            let listening = self.listens_at(&local).and_then(|index| self.entries.get_mut(index));
            if let Some(Some(entry)) = listening {
                if let Entry::Listens { at, options } = *entry {
                    let mut connection = Connection::new(stream, Some(at));
                    connection.note(&mut self.streams);
                    *entry = Entry::Has(connection);
                    self.apply(stream, options);
                    has_given = true;
                }
            } else if now >= until || !self.is_served(&local) {
                self.refuse(stream);
            } else {
                self.waiting.push(Waiting { stream, local, until });
            }
        }
        has_given
    }
}

impl Connections for Table {
    fn poll(&mut self, host: &mut Host, now: Instant) -> bool {
        // Its instants are moments, and there is a host.
        let _ = self.streams.poll(host, now);
        self.accept(now);
        let mut has_changed = self.give(now);
        for entry in self.entries.iter_mut().flatten() {
            if let Entry::Has(connection) = entry {
                has_changed |= connection.note(&mut self.streams);
            }
        }
        has_changed
    }

    fn poll_at(&mut self) -> Option<Instant> {
        let due = |one: &Waiting| if self.listens_at(&one.local).is_some() { Instant::ZERO } else { one.until };
        let waiting = self.waiting.iter().map(due).min();
        self.streams.poll_at().into_iter().chain(waiting).min()
    }

    fn look(&mut self, index: usize) -> Look {
        let connection = match self.entries.get(index) {
            Some(Some(Entry::Has(connection))) => connection,
            Some(Some(Entry::Listens { .. })) => return Look::of(StreamState::Listen),
            _ => return Look::of(StreamState::Closed),
        };
        let state = self.streams.state(connection.stream).unwrap_or(StreamState::Closed);
        let (writable, readable) = self.streams.rooms(connection.stream).unwrap_or((0, 0));
        let unacknowledged = match state {
            StreamState::Established | StreamState::CloseWait => self.send_room.saturating_sub(writable),
            StreamState::FinWait1 | StreamState::Closing | StreamState::LastAck => connection.left_at_close,
            _ => 0,
        };
        Look { state, writable, readable, unacknowledged, is_finished: connection.is_finished || is_after_end(state) }
    }

    fn remove(&mut self, index: usize) {
        if let Some(Some(Entry::Has(connection))) = self.entries.get_mut(index).map(Option::take) {
            // It is refused only if the name names nothing.
            let _ = self.streams.release(connection.stream);
        }
    }

    fn table(&mut self) -> &mut Table {
        self
    }
}
