//! Clients of DNS (RFC 1035, RFC 3596), each for a host: the library's calls for them, as safe methods.
use super::{Error, Host, NO_ADDRESS, answer, from_c, to_c, until_from_c};
use crate::sys;
use crate::time::Instant;
use crate::wire::{DnsQueryType, IpAddress};

/// Names a query of a client, until it is cancelled.
#[derive(Clone, Copy, Debug, PartialEq, Eq, PartialOrd, Ord, Hash)]
pub struct DnsQuery(usize);

/// Why a query found no address.
#[derive(Clone, Copy, Debug, PartialEq, Eq)]
#[non_exhaustive]
pub enum DnsFailure {
    /// There is no such name.
    NoSuchName,
    /// All servers failed, or refused.
    ServerFailure,
    /// The answer didn't fit in one message, and what did has no address.
    Truncated,
    /// The name has no address of the type that was asked for.
    NoAddress,
    /// The name is an alias of an alias, and so on more than eight times.
    TooManyAliases,
    /// No server answered.
    TimedOut,
}

/// What has become of a query.
#[derive(Clone, Copy, Debug, PartialEq, Eq)]
pub enum DnsResult {
    /// It waits for an answer.
    Pending,
    /// The first addresses of the name, from the first place on.
    Addresses([Option<IpAddress>; sys::IFACE_DNS_ADDRESSES]),
    /// The same, of an answer that didn't fit in one message: the name may have others.
    TruncatedAddresses([Option<IpAddress>; sys::IFACE_DNS_ADDRESSES]),
    /// There are none.
    Failed(DnsFailure),
}

impl DnsResult {
    /// What stands where the library is to write a result.
    const NONE: sys::iface_dns_answer =
        sys::iface_dns_answer { state: 0, addresses: [NO_ADDRESS; sys::IFACE_DNS_ADDRESSES] };

    fn from_c(result: &sys::iface_dns_answer) -> DnsResult {
        let list = || result.addresses.each_ref().map(|address| (address.version != 0).then(|| from_c(address)));
        match result.state {
            sys::IFACE_DNS_PENDING => DnsResult::Pending,
            sys::IFACE_DNS_FOUND => DnsResult::Addresses(list()),
            sys::IFACE_DNS_FOUND_TRUNCATED => DnsResult::TruncatedAddresses(list()),
            sys::IFACE_DNS_NO_SUCH_NAME => DnsResult::Failed(DnsFailure::NoSuchName),
            sys::IFACE_DNS_TRUNCATED => DnsResult::Failed(DnsFailure::Truncated),
            sys::IFACE_DNS_NO_ADDRESS => DnsResult::Failed(DnsFailure::NoAddress),
            sys::IFACE_DNS_TOO_MANY_ALIASES => DnsResult::Failed(DnsFailure::TooManyAliases),
            sys::IFACE_DNS_TIMED_OUT => DnsResult::Failed(DnsFailure::TimedOut),
            _ => DnsResult::Failed(DnsFailure::ServerFailure),
        }
    }
}

/// A client that asks servers for the addresses of names, several at once: the library's own calls. It goes with one host. It needs
/// no allocator in Rust, and goes from thread to thread.
///
/// ```
/// # use fumitorygate::{Dns, DnsResult, Host, Settings, time::Instant, wire::{DnsQueryType, EthernetAddress, IpAddress}};
/// # fn main() -> Result<(), fumitorygate::Error> {
/// # let (now, mut out) = (Instant::ZERO, [0; fumitorygate::FRAME_ROOM]);
/// # let mut host = Host::new(&Settings::new(EthernetAddress([2, 0, 0, 0, 0, 1]).into()))?;
/// # host.add_address("192.168.69.1/24".parse().unwrap())?;
/// let key = fumitorygate::Secrets::random().table_key;
/// let mut names = Dns::new(4, key, &[IpAddress::v4(192, 168, 69, 100)])?;
/// let query = names.start(&mut host, now, "www.example.com", DnsQueryType::A)?;
/// // After each frame that came, and at the instant below:
/// names.poll(&mut host, now);
/// while let Some(frame) = host.next(now, &mut out)? {
///     // it is sent
/// #   assert_eq!(frame[12..14], [8, 6]);
/// }
/// match names.result(query)? {
///     DnsResult::Pending => {}
///     DnsResult::Addresses(list) | DnsResult::TruncatedAddresses(list) => println!("{list:?}"),
///     DnsResult::Failed(why) => println!("{why:?}"),
/// }
/// let wake = names.poll_at().into_iter().chain(host.poll_at(now)).min();
/// names.cancel(&mut host, query)?;
/// # names.free(&mut host);
/// # Ok(())
/// # }
/// ```
#[derive(Debug)]
pub struct Dns {
    raw: sys::iface_dns,
}

// SAFETY: `iface.h` says that a client's handle is kept as that of a host, whose calls may each be in another thread, and
// that two handles share nothing. No method takes `&self`.
unsafe impl Send for Dns {}

/// A call of the library on a client's handle. Its pointers are all made from references in the call itself.
macro_rules! call {
    ($client:ident . $name:ident ( $($argument:expr),* )) => {
        // SAFETY: the handle is the library's and borrowed for this call. Pointers are those of references, so they are not
        // null, are to whole values, and don't overlap where one is written; a name's has its length beside it, and those to a
        // key and to servers are to arrays as long as the header says.
        answer(unsafe { sys::$name(&mut $client.raw, $($argument),*) })
    };
}

impl Drop for Dns {
    fn drop(&mut self) {
        let mut no_host = sys::iface::NONE;
        // It is refused only without a client.
        let _ = call!(self.iface_dns_free(&mut no_host));
    }
}

/// Servers as the library has them.
fn servers_to_c(servers: &[IpAddress]) -> Result<[sys::iface_address; sys::IFACE_DNS_SERVERS], Error> {
    let mut list = [NO_ADDRESS; sys::IFACE_DNS_SERVERS];
    let places = list.get_mut(..servers.len()).ok_or(Error::TableFull)?;
    places.iter_mut().zip(servers).for_each(|(place, server)| *place = to_c(server));
    Ok(list)
}

impl Dns {
    /// Makes a client for so many queries at once, which asks up to three servers, one after another. The key is a secret of
    /// random octets, by which nobody can tell the numbers and ports of queries (RFC 5452, 9.2), as
    /// [`Secrets::table_key`](super::Secrets::table_key).
    ///
    /// # Errors
    /// [`Error::TableFull`] if there are more servers, [`Error::NoMemory`].
    pub fn new(queries: u32, key: [u64; 2], servers: &[IpAddress]) -> Result<Dns, Error> {
        let servers = servers_to_c(servers)?;
        let mut client = Dns { raw: sys::iface_dns::NONE };
        call!(client.iface_dns_new(queries, key.as_ptr(), servers.as_ptr()))?;
        Ok(client)
    }

    /// Sets the servers. Queries that wait go on with these: each asks the one whose turn it is, and no answer of another
    /// counts; without a server they time out.
    ///
    /// # Errors
    /// As [`new`](Dns::new). Then nothing changes.
    pub fn set_servers(&mut self, servers: &[IpAddress]) -> Result<(), Error> {
        let servers = servers_to_c(servers)?;
        call!(self.iface_dns_servers(servers.as_ptr()))
    }

    /// Starts a query for a name, as `www.example.com`, whose dot at the end is left out. It stays until it is cancelled. While it
    /// waits, it has a UDP socket of the host at a random port.
    ///
    /// # Errors
    /// [`Error::BadName`] if a label between dots is empty or longer than 63 octets, or the name longer than 253;
    /// [`Error::NoServer`]; [`Error::TableFull`] if there are as many queries as may be, or all of
    /// [`Settings::sockets`](super::Settings::sockets) are open; [`Error::NoMemory`].
    pub fn start(
        &mut self,
        host: &mut Host,
        now: Instant,
        name: &str,
        query_type: DnsQueryType,
    ) -> Result<DnsQuery, Error> {
        let kind = match query_type {
            DnsQueryType::A => sys::IFACE_DNS_A,
            DnsQueryType::Aaaa => sys::IFACE_DNS_AAAA,
        };
        let (now, octets, mut query) = (now.total_micros(), name.as_bytes(), 0);
        call!(self.iface_dns_start(&mut host.raw, now, octets.as_ptr().cast(), octets.len(), kind, &mut query))?;
        Ok(DnsQuery(query))
    }

    /// Does what is due: queries take what came to their sockets, queue what they send now, and give up after their time; the
    /// socket of one that waits no longer is closed. A message for which there is no room counts as lost.
    pub fn poll(&mut self, host: &mut Host, now: Instant) {
        // It is refused only without a client or a host.
        let _ = call!(self.iface_dns_poll(&mut host.raw, now.total_micros()));
    }

    /// The instant at which [`poll`](Dns::poll) is to be called again, if nothing comes before and no query is started. `None`
    /// if no query waits.
    pub fn poll_at(&mut self) -> Option<Instant> {
        let mut at = sys::IFACE_NEVER;
        // It is refused only without a client.
        let _ = call!(self.iface_dns_poll_at(&mut at));
        until_from_c(at)
    }

    /// What has become of a query.
    ///
    /// # Errors
    /// [`Error::NotThere`] if it was cancelled, and no other one has its place.
    pub fn result(&mut self, query: DnsQuery) -> Result<DnsResult, Error> {
        let mut result = DnsResult::NONE;
        call!(self.iface_dns_result(query.0, &mut result))?;
        Ok(DnsResult::from_c(&result))
    }

    /// Ends a query, whatever has become of it, and closes its socket. The next one may have its place.
    ///
    /// # Errors
    /// [`Error::NotThere`] if it was cancelled before, and no other one has its place.
    pub fn cancel(&mut self, host: &mut Host, query: DnsQuery) -> Result<(), Error> {
        call!(self.iface_dns_cancel(&mut host.raw, query.0))
    }

    /// Closes its sockets of the host, which stay open where it is dropped.
    pub fn free(mut self, host: &mut Host) {
        // It is refused only without a client.
        let _ = call!(self.iface_dns_free(&mut host.raw));
    }
}
