//! Clients of DNS (RFC 1035, RFC 3596), which ask for the addresses of names: with the feature `socket-dns`.
//!
//! A client sends and receives while the interface is polled. Each query has a UDP socket of its own as long as it waits, at a
//! random port, and so one of [`Config::sockets`](crate::iface::Config::sockets).
use super::AnySocket;
use crate::host::{Dns, DnsQuery as Query, DnsResult, Error, Host};
use crate::iface::{Context, List};
use crate::shared::Shared;
use crate::sys;
use crate::time::Instant;
use crate::wire::{DnsQueryType, IpAddress, Ipv4Address};
use alloc::vec::Vec;
use core::fmt;
use core::marker::PhantomData;
#[cfg(feature = "async")]
use core::task::Waker;

/// How many servers a client asks at most.
pub const MAX_SERVER_COUNT: usize = sys::IFACE_DNS_SERVERS;

/// How many addresses a result has at most.
pub const MAX_ADDRESS_COUNT: usize = sys::IFACE_DNS_ADDRESSES;

/// How many queries a client without storage has.
const USUAL_QUERIES: usize = 4;

/// What smoltcp keeps a query in. Here it only counts.
#[derive(Clone, Copy, Debug, Default, PartialEq, Eq)]
pub struct DnsQuery {
    _private: (),
}

/// How many queries a client has at once: as many as there are places in the storage, or four for an empty vector.
#[derive(Clone, Copy, Debug, PartialEq, Eq)]
pub struct Storage(usize);

impl From<Vec<Option<DnsQuery>>> for Storage {
    fn from(places: Vec<Option<DnsQuery>>) -> Storage {
        Storage(if places.is_empty() { USUAL_QUERIES } else { places.len() })
    }
}

impl From<&mut [Option<DnsQuery>]> for Storage {
    fn from(places: &mut [Option<DnsQuery>]) -> Storage {
        Storage(places.len())
    }
}

/// Names a query of a client, until its result was got, or it was cancelled.
#[derive(Clone, Copy, Debug, PartialEq, Eq)]
pub struct QueryHandle(usize);

/// Why a query isn't started.
#[derive(Clone, Copy, Debug, PartialEq, Eq)]
#[non_exhaustive]
pub enum StartQueryError {
    /// Each place has a query.
    NoFreeSlot,
    /// A label is empty, or longer than 63 octets.
    InvalidName,
    /// The name is longer than 253 octets.
    NameTooLong,
    /// There is no server. smoltcp's query fails then.
    NoServer,
    /// All of [`Config::sockets`](crate::iface::Config::sockets) are open, or there is no memory.
    Exhausted,
}

impl fmt::Display for StartQueryError {
    fn fmt(&self, f: &mut fmt::Formatter<'_>) -> fmt::Result {
        f.write_str(match self {
            StartQueryError::NoFreeSlot => "No free slot",
            StartQueryError::InvalidName => "Invalid name",
            StartQueryError::NameTooLong => "Name too long",
            StartQueryError::NoServer => "No server",
            StartQueryError::Exhausted => "Exhausted",
        })
    }
}

impl core::error::Error for StartQueryError {}

/// Why there is no result.
#[derive(Clone, Copy, Debug, PartialEq, Eq)]
pub enum GetQueryResultError {
    /// The query waits for an answer.
    Pending,
    /// It has failed: there is no such name, or no such address of it, or no server answered.
    Failed,
}

impl fmt::Display for GetQueryResultError {
    fn fmt(&self, f: &mut fmt::Formatter<'_>) -> fmt::Result {
        f.write_str(match self {
            GetQueryResultError::Pending => "Query is not done yet",
            GetQueryResultError::Failed => "Query failed",
        })
    }
}

impl core::error::Error for GetQueryResultError {}

/// The addresses that a query found.
type Found = List<IpAddress, MAX_ADDRESS_COUNT>;

/// A query.
#[derive(Debug)]
struct Entry {
    /// While it waits, the library has it.
    waits: Option<Query>,
    /// Then it has found addresses, or none.
    found: Option<Found>,
    #[cfg(feature = "async")]
    waker: Option<Waker>,
}

impl Entry {
    /// It waits no longer.
    fn end(&mut self, found: Option<Found>) {
        (self.waits, self.found) = (None, found);
    }
}

/// A client of a host's: of no lifetime, so that storage may lend a set what it is dropped with.
#[derive(Debug)]
struct Client {
    host: Shared,
    /// `None` after it was given back.
    dns: Option<Dns>,
    /// How many queries wait, each of which has a place for a socket.
    waiting: u32,
}

impl Client {
    fn new(host: &Shared, queries: usize, servers: &[IpAddress]) -> Result<Client, Error> {
        let queries = u32::try_from(queries).map_err(|_| Error::NoMemory)?;
        let dns = Dns::new(queries, key(host), servers)?;
        Ok(Client { host: host.clone(), dns: Some(dns), waiting: 0 })
    }

    /// Calls the library's client with its host.
    fn call<R>(&mut self, f: impl FnOnce(&mut Host, &mut Dns) -> R) -> Option<R> {
        let dns = self.dns.as_mut()?;
        Some(self.host.with(|host| f(host, dns)))
    }

    /// Starts a query, which takes a place.
    fn start(&mut self, name: &str, query_type: DnsQueryType) -> Result<Query, Error> {
        let Client { host, dns: Some(dns), waiting } = self else { return Err(Error::NoMemory) };
        let now = host.whole(|inner| inner.now);
        let query = host.take_places(1, |host| dns.start(host, now, name, query_type))?;
        *waiting += 1;
        Ok(query)
    }

    /// Ends a query that waited, or has its result, and frees its place.
    fn end(&mut self, query: Query) {
        if let Client { host, dns: Some(dns), waiting } = self {
            host.free_places(1, |host| {
                // It is there as long as it waits.
                let _ = dns.cancel(host, query);
            });
            *waiting -= 1;
        }
    }

    fn poll_at(&mut self) -> Option<Instant> {
        self.dns.as_mut()?.poll_at()
    }
}

impl Drop for Client {
    fn drop(&mut self) {
        if let Some(dns) = self.dns.take() {
            self.host.free_places(self.waiting, |host| dns.free(host));
        }
    }
}

/// A client of DNS.
#[derive(Debug)]
pub struct Socket<'a> {
    servers: List<IpAddress, MAX_SERVER_COUNT>,
    /// Whether the client has these servers.
    is_told: bool,
    /// At a host there is a client.
    client: Option<Client>,
    entries: Vec<Option<Entry>>,
    /// When the client does something next, if nothing comes.
    at: Option<Instant>,
    lifetime: PhantomData<&'a mut [u8]>,
}

/// The first servers of a list, as many as there may be.
fn first_of(servers: &[IpAddress]) -> List<IpAddress, MAX_SERVER_COUNT> {
    List::read(usize::MAX, IpAddress::Ipv4(Ipv4Address::UNSPECIFIED), |index| servers.get(index as usize).copied())
}

impl<'a> Socket<'a> {
    /// A client that asks the first three of these servers, one after another.
    pub fn new<Q: Into<Storage>>(servers: &[IpAddress], queries: Q) -> Socket<'a> {
        let Storage(count) = queries.into();
        Socket {
            servers: first_of(servers),
            is_told: false,
            client: None,
            entries: (0..count).map(|_| None).collect(),
            at: None,
            lifetime: PhantomData,
        }
    }

    /// Sets the servers: the first three of these. Queries that wait go on with them.
    pub fn update_servers(&mut self, servers: &[IpAddress]) {
        self.servers = first_of(servers);
        self.is_told = false;
        self.tell_servers();
    }

    /// Starts a query for a name, as `www.example.com`, whose dot at the end is left out. The next poll of the interface with
    /// its set sends it.
    ///
    /// # Errors
    /// The first that applies of [`StartQueryError`]'s.
    ///
    /// # Panics
    /// If the context is another interface's than the set's.
    pub fn start_query(
        &mut self,
        cx: &mut Context,
        name: &str,
        query_type: DnsQueryType,
    ) -> Result<QueryHandle, StartQueryError> {
        check(name)?;
        let index = self.entries.iter().position(Option::is_none).ok_or(StartQueryError::NoFreeSlot)?;
        self.attach(&cx.0).map_err(|_| StartQueryError::Exhausted)?;
        if self.servers.is_empty() {
            return Err(StartQueryError::NoServer);
        }
        let client = self.client.as_mut().ok_or(StartQueryError::Exhausted)?;
        let query = client.start(name, query_type).map_err(|error| match error {
            Error::BadName => StartQueryError::InvalidName,
            Error::NoServer => StartQueryError::NoServer,
            _ => StartQueryError::Exhausted,
        })?;
        self.at = client.poll_at();
        self.entries[index] = Some(Entry {
            waits: Some(query),
            found: None,
            #[cfg(feature = "async")]
            waker: None,
        });
        Ok(QueryHandle(index))
    }

    /// The addresses that a query found, at most four. Its slot is free then, also where it failed.
    ///
    /// # Errors
    /// [`GetQueryResultError`].
    ///
    /// # Panics
    /// If the handle names no query, as smoltcp's.
    pub fn get_query_result(&mut self, handle: QueryHandle) -> Result<Found, GetQueryResultError> {
        let entry = self.entry(handle);
        if entry.waits.is_some() {
            return Err(GetQueryResultError::Pending);
        }
        let found = entry.found;
        self.entries[handle.0] = None;
        found.ok_or(GetQueryResultError::Failed)
    }

    /// Ends a query, and frees its slot.
    ///
    /// # Panics
    /// If the handle names no query, as smoltcp's.
    pub fn cancel_query(&mut self, handle: QueryHandle) {
        if let Some(query) = self.entry(handle).waits.take() {
            self.free(query);
        }
        self.entries[handle.0] = None;
    }

    /// Sets the task that is woken when a query has its result, by the calls of the interface that
    /// [`udp::Socket::register_recv_waker`](super::udp::Socket::register_recv_waker) names. It is woken once; one that was set
    /// before isn't woken any more.
    ///
    /// # Panics
    /// If the handle names no query, as smoltcp's.
    #[cfg(feature = "async")]
    pub fn register_query_waker(&mut self, handle: QueryHandle, waker: &Waker) {
        self.entry(handle).waker = Some(waker.clone());
    }

    #[cfg(feature = "async")]
    pub(crate) fn wake(&mut self) {
        let ended = self.entries.iter_mut().flatten().filter(|entry| entry.waits.is_none());
        ended.filter_map(|entry| entry.waker.take()).for_each(Waker::wake);
    }

    fn entry(&mut self, handle: QueryHandle) -> &mut Entry {
        match self.entries.get_mut(handle.0) {
            Some(Some(entry)) => entry,
            _ => panic!("the handle names no query"),
        }
    }

    /// Ends a query of the library, and frees its place.
    fn free(&mut self, query: Query) {
        if let Some(client) = &mut self.client {
            client.end(query);
            self.at = client.poll_at();
        }
    }

    /// Gives the client its servers, which it may refuse for want of memory. Then the next poll does it again.
    fn tell_servers(&mut self) {
        if let (false, Some(Client { dns: Some(dns), .. })) = (self.is_told, &mut self.client) {
            self.is_told = dns.set_servers(&self.servers).is_ok();
        }
    }

    /// Has a client at a host, if there is none.
    pub(crate) fn attach(&mut self, host: &Shared) -> Result<(), Error> {
        if let Some(client) = &self.client {
            assert!(client.host.is(host), "the context is another interface's");
            return Ok(());
        }
        self.client = Some(Client::new(host, self.entries.len(), &self.servers)?);
        self.is_told = true;
        Ok(())
    }

    pub(crate) fn detach(&mut self) {
        self.entries.iter_mut().flatten().filter(|entry| entry.waits.is_some()).for_each(|entry| entry.end(None));
        self.client = None;
        self.at = None;
    }

    /// Lets queries do what is due, and tells whether one has its result.
    pub(crate) fn step(&mut self, now: Instant) -> bool {
        self.tell_servers();
        let Some(client) = &mut self.client else { return false };
        client.call(|host, dns| dns.poll(host, now));
        let mut is_news = false;
        for entry in self.entries.iter_mut().flatten() {
            let Some(query) = entry.waits else { continue };
            let found = match client.call(|_, dns| dns.result(query)) {
                Some(Ok(DnsResult::Pending)) => continue,
                Some(Ok(DnsResult::Addresses(list) | DnsResult::TruncatedAddresses(list))) => Some(found_of(&list)),
                _ => None,
            };
            client.end(query);
            entry.end(found);
            is_news = true;
        }
        self.at = client.poll_at();
        is_news
    }

    pub(crate) fn poll_at(&self) -> Option<Instant> {
        self.at
    }
}

/// Whether it is a name: first each label, and then all of it, as smoltcp reads it.
fn check(name: &str) -> Result<(), StartQueryError> {
    let name = name.strip_suffix('.').unwrap_or(name);
    if name.split('.').any(|label| label.is_empty() || label.len() > 63) {
        return Err(StartQueryError::InvalidName);
    }
    if name.len() > 253 {
        return Err(StartQueryError::NameTooLong);
    }
    Ok(())
}

fn found_of(addresses: &[Option<IpAddress>; MAX_ADDRESS_COUNT]) -> Found {
    List::read(usize::MAX, IpAddress::Ipv4(Ipv4Address::UNSPECIFIED), |index| *addresses.get(index as usize)?)
}

/// A key of the operating system's random numbers.
#[cfg(feature = "std")]
fn key(_: &Shared) -> [u64; 2] {
    crate::host::Secrets::random().table_key
}

/// A key by the interface's seed.
#[cfg(not(feature = "std"))]
fn key(host: &Shared) -> [u64; 2] {
    [host.next_seed(), host.next_seed()]
}

impl<'a> AnySocket<'a> for Socket<'a> {
    fn upcast(self) -> super::Socket<'a> {
        super::Socket::Dns(self)
    }

    fn downcast<'c>(socket: &'c super::Socket<'a>) -> Option<&'c Socket<'a>> {
        if let super::Socket::Dns(socket) = socket { Some(socket) } else { None }
    }

    fn downcast_mut<'c>(socket: &'c mut super::Socket<'a>) -> Option<&'c mut Socket<'a>> {
        if let super::Socket::Dns(socket) = socket { Some(socket) } else { None }
    }
}
