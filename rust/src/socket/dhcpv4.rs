//! Clients of DHCP (RFC 2131), which lease an IPv4 address: with the feature `socket-dhcpv4`.
//!
//! A client sends and receives while the interface is polled, by a UDP socket of port 68 of its own. What it leased is told
//! by [`Socket::poll`], and is the program's to be set: addresses and routes of the interface stay as they are.
use super::AnySocket;
use crate::host::{Dhcp, Error, Lease};
use crate::iface::List;
use crate::shared::Shared;
use crate::time::{Duration, Instant};
use crate::wire::{Ipv4Address, Ipv4Cidr};
use core::marker::PhantomData;
#[cfg(feature = "async")]
use core::task::Waker;

/// How many servers of names a lease has at most.
pub const MAX_DNS_SERVER_COUNT: usize = 3;

/// The server that leased an address.
#[derive(Clone, Copy, Debug, PartialEq, Eq)]
pub struct ServerInfo {
    /// Where it is asked for a renewal: its identifier, also where a relay is between.
    pub address: Ipv4Address,
    /// Its identifier (RFC 2132, 9.7).
    pub identifier: Ipv4Address,
}

/// What a server leased.
#[derive(Clone, Copy, Debug, PartialEq, Eq)]
#[non_exhaustive]
pub struct Config {
    /// The server.
    pub server: ServerInfo,
    /// The address with its network: of 32 bits, if the server told no mask.
    pub address: Ipv4Cidr,
    /// The router, if the server told one.
    pub router: Option<Ipv4Address>,
    /// Servers of names.
    pub dns_servers: List<Ipv4Address, MAX_DNS_SERVER_COUNT>,
}

impl Config {
    fn of(lease: &Lease) -> Config {
        let name_server = |index: u32| *lease.dns_servers.get(index as usize)?;
        Config {
            server: ServerInfo { address: lease.server, identifier: lease.server },
            address: lease.address,
            router: lease.router,
            dns_servers: List::read(usize::MAX, Ipv4Address::UNSPECIFIED, name_server),
        }
    }
}

/// What has become of the lease.
#[derive(Clone, Copy, Debug, PartialEq, Eq)]
pub enum Event {
    /// There is none: the interface has to give up its address and its router.
    Deconfigured,
    /// There is one: the interface has to have its address and its router.
    Configured(Config),
}

/// How many places of sockets a client takes.
const PLACES: u32 = 2;

/// A client of DHCP. It asks for an address as soon as it is in a set, and gives its lease up when it is taken out.
#[derive(Debug)]
pub struct Socket<'a> {
    /// At a host there is a client.
    client: Option<Client>,
    config: Option<Config>,
    /// Whether that isn't told yet.
    is_news: bool,
    /// When the client does something next, if nothing comes.
    at: Option<Instant>,
    max_lease_duration: Option<Duration>,
    /// When a lease is given up that the server gave for longer.
    ends_at: Option<Instant>,
    #[cfg(feature = "async")]
    waker: Option<Waker>,
    lifetime: PhantomData<&'a mut [u8]>,
}

/// A client of a host's: of no lifetime, so that storage may lend a set what it is dropped with.
#[derive(Debug)]
struct Client {
    host: Shared,
    /// `None` after it was given back.
    dhcp: Option<Dhcp>,
}

impl Drop for Client {
    fn drop(&mut self) {
        if let Some(dhcp) = self.dhcp.take() {
            self.host.free_places(PLACES, |host| dhcp.free(host));
        }
    }
}

impl<'a> Socket<'a> {
    /// A client without a lease, as its first event tells.
    #[expect(clippy::new_without_default, reason = "smoltcp has none")]
    pub fn new() -> Socket<'a> {
        Socket {
            client: None,
            config: None,
            is_news: true,
            at: None,
            max_lease_duration: None,
            ends_at: None,
            #[cfg(feature = "async")]
            waker: None,
            lifetime: PhantomData,
        }
    }

    /// The longest time for which a lease is kept, if one is set.
    pub fn max_lease_duration(&self) -> Option<Duration> {
        self.max_lease_duration
    }

    /// Sets the longest time for which a lease is kept, from the next one or its next renewal on. `None`: as long as the
    /// server says. The client renews by the server's times: one that was kept so long without a renewal is given up, as by
    /// [`reset`](Socket::reset), where smoltcp's client renews it before.
    pub fn set_max_lease_duration(&mut self, max_lease_duration: Option<Duration>) {
        self.max_lease_duration = max_lease_duration;
    }

    /// What has become of the lease, if that has changed since the last call. It says what there is now: of a lease that was
    /// lost and got again in between just the latter, and nothing of one that was renewed with the same values.
    pub fn poll(&mut self) -> Option<Event> {
        let is_news = core::mem::take(&mut self.is_news);
        is_news.then(|| self.config.map_or(Event::Deconfigured, Event::Configured))
    }

    /// Is called once a link came up: gives up the lease, if there is one, and asks for its address again (RFC 2131 3.2), where
    /// smoltcp's client asks for offers. Without a lease it begins anew. Nothing is released to the server.
    pub fn reset(&mut self) {
        if let Some(Client { dhcp: Some(dhcp), .. }) = &mut self.client {
            dhcp.reset();
            (self.at, self.ends_at) = (dhcp.poll_at(), None);
        }
        self.set_config(None);
    }

    /// Sets the task that is woken when there is an event, by the calls of the interface that
    /// [`udp::Socket::register_recv_waker`](super::udp::Socket::register_recv_waker) names. It is woken once; one that was set
    /// before isn't woken any more.
    #[cfg(feature = "async")]
    pub fn register_waker(&mut self, waker: &Waker) {
        self.waker = Some(waker.clone());
    }

    #[cfg(feature = "async")]
    pub(crate) fn wake(&mut self) {
        if self.is_news {
            self.waker.take().into_iter().for_each(Waker::wake);
        }
    }

    pub(crate) fn attach(&mut self, host: &Shared) -> Result<(), Error> {
        let seed = host.next_seed();
        let mut dhcp = host.take_places(PLACES, |host| Dhcp::new(host, seed, None))?;
        // As smoltcp's: an address is told at once.
        dhcp.set_probing(false);
        self.client = Some(Client { host: host.clone(), dhcp: Some(dhcp) });
        self.at = Some(Instant::ZERO);
        Ok(())
    }

    pub(crate) fn detach(&mut self) {
        self.client = None;
        (self.at, self.ends_at) = (None, None);
        self.set_config(None);
    }

    /// Lets the client do what is due, and tells whether there is an event.
    pub(crate) fn step(&mut self, now: Instant) -> bool {
        let Some(Client { host, dhcp: Some(dhcp) }) = &mut self.client else { return false };
        if self.ends_at.is_some_and(|at| at <= now) {
            dhcp.reset();
        }
        // It is never refused: the client's socket is open as long as it is there.
        let event = host.with(|host| dhcp.poll(host, now)).ok().flatten();
        self.at = dhcp.poll_at();
        if event.is_some() {
            let config = dhcp.lease().as_ref().map(Config::of);
            self.ends_at = self.max_lease_duration.filter(|_| config.is_some()).map(|span| now + span);
            self.set_config(config);
        }
        self.is_news && event.is_some()
    }

    pub(crate) fn poll_at(&self) -> Option<Instant> {
        self.at.into_iter().chain(self.ends_at).min()
    }

    fn set_config(&mut self, config: Option<Config>) {
        self.is_news |= self.config != config;
        self.config = config;
    }
}

impl<'a> AnySocket<'a> for Socket<'a> {
    fn upcast(self) -> super::Socket<'a> {
        super::Socket::Dhcpv4(self)
    }

    fn downcast<'c>(socket: &'c super::Socket<'a>) -> Option<&'c Socket<'a>> {
        if let super::Socket::Dhcpv4(socket) = socket { Some(socket) } else { None }
    }

    fn downcast_mut<'c>(socket: &'c mut super::Socket<'a>) -> Option<&'c mut Socket<'a>> {
        if let super::Socket::Dhcpv4(socket) = socket { Some(socket) } else { None }
    }
}
