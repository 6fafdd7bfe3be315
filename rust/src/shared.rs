//! A host that an interface and its sockets share, in one call at a time, whichever threads they are in.
//!
//! The lock is a sequentially consistent atomic: one of the ways by which `docs/C.md` lets a host go from thread to
//! thread.
use crate::host::{Error, Frame, Host, Secrets, StreamState};
use crate::iface::Config;
use crate::time::{Duration, Instant};
use alloc::boxed::Box;
use alloc::sync::Arc;
use core::cell::UnsafeCell;
use core::fmt;
use core::sync::atomic::{AtomicBool, AtomicU64, Ordering::SeqCst};

struct Lock {
    is_taken: AtomicBool,
    inner: UnsafeCell<Inner>,
    /// The octets of the link's longest packet of IP.
    ip_mtu: usize,
    /// The seed of the next client of DHCP.
    seed: AtomicU64,
}

// SAFETY: `Shared::whole` lends what is inside to one thread at a time, and that is `Send`, as `is_send` tells.
unsafe impl Sync for Lock {}

const _: fn() = || {
    fn is_send<T: Send>() {}
    is_send::<Inner>();
};

/// A host, and its connections of TCP, once a socket needs them.
pub(crate) struct Inner {
    pub(crate) host: Host,
    /// The connections: behind a table of calls, so that a program without a socket of TCP is linked without them.
    pub(crate) tcp: Option<Box<dyn Connections>>,
    /// How they are to be made.
    pub(crate) config: TcpConfig,
    /// What the sockets of TCP have that came into a set: their number, and the longest buffers of one.
    pub(crate) tcp_sockets: u32,
    pub(crate) tcp_rooms: (usize, usize),
    /// The instant of the last poll.
    pub(crate) now: Instant,
    /// Whether a connection has changed since this was last asked.
    tcp_changed: bool,
    /// How many sockets are open but TCP's, and how many may be.
    open: u32,
    sockets: u32,
}

/// How many sockets of a host connections of TCP take.
pub(crate) const TCP_SOCKETS: u32 = 4;

/// How connections of TCP are to be made, when the first socket listens or connects. smoltcp has none such: there a socket
/// has room of its own.
///
/// Memory for all connections is taken at once: for each of `connections` as many octets as both rooms have, and four times
/// `packet_octets` for what comes and goes over IPv4 and IPv6.
#[derive(Clone, Copy, Debug, Default, PartialEq, Eq)]
#[non_exhaustive]
pub struct TcpConfig {
    /// Two secrets. `None`: from the operating system, by [`Secrets::random`]; without the feature `std` no socket listens
    /// or connects then.
    pub secrets: Option<Secrets>,
    /// How many connections there are at most, those of sockets that are closed, of handshakes and in TIME-WAIT too.
    /// `None`: twice as many as there are sockets of TCP in sets by then, and at least 16.
    pub connections: Option<u32>,
    /// How many octets each may hold that aren't acknowledged. `None`: the longest buffer of a socket in a set by then.
    pub send_room: Option<u32>,
    /// How many octets each may hold that aren't read. `None`: the longest buffer of a socket in a set by then.
    pub receive_room: Option<u32>,
    /// How long TIME-WAIT lasts. `None`: 60 seconds.
    pub time_wait: Option<Duration>,
    /// The shortest time after which something is sent again. `None`: 200 milliseconds.
    pub shortest_timeout: Option<Duration>,
    /// How many octets of packets wait to be sent, of all connections over one version of IP, and as many that came and aren't
    /// taken. `None`: 1,536.
    pub packet_octets: Option<u32>,
    /// Whether connections have no congestion window.
    pub no_congestion_control: bool,
}

/// What a socket of TCP shows of itself.
#[derive(Clone, Copy, Debug, PartialEq, Eq)]
pub(crate) struct Look {
    pub(crate) state: StreamState,
    /// How many octets can be written.
    pub(crate) writable: usize,
    /// How many can be read.
    pub(crate) readable: usize,
    /// How many aren't acknowledged.
    pub(crate) unacknowledged: usize,
    /// Whether the peer's end came.
    pub(crate) is_finished: bool,
}

impl Look {
    /// What a socket shows that has no connection.
    pub(crate) const fn of(state: StreamState) -> Look {
        Look { state, writable: 0, readable: 0, unacknowledged: 0, is_finished: false }
    }
}

/// Connections of TCP, and the sockets that have them or listen.
pub(crate) trait Connections: Send {
    /// Does what is due, and tells whether a socket has changed.
    fn poll(&mut self, host: &mut Host, now: Instant) -> bool;
    /// When it is to be called again.
    fn poll_at(&mut self) -> Option<Instant>;
    /// What a socket shows.
    fn look(&mut self, socket: usize) -> Look;
    /// Lets go of a socket.
    fn remove(&mut self, socket: usize);
    /// They themselves.
    fn table(&mut self) -> &mut crate::socket::tcp::Table;
}

impl Inner {
    fn poll_tcp(&mut self, now: Instant) {
        self.now = now;
        if let Some(tcp) = &mut self.tcp {
            self.tcp_changed |= tcp.poll(&mut self.host, now);
        }
    }
}

#[derive(Clone)]
pub(crate) struct Shared(Arc<Lock>);

/// Gives the host back, also where a panic ends the call.
struct GivesBack<'a>(&'a AtomicBool);

impl Drop for GivesBack<'_> {
    #[inline]
    fn drop(&mut self) {
        self.0.store(false, SeqCst);
    }
}

impl Shared {
    /// A host that begins at an instant, on a link whose longest packet of IP has so many octets. It has places for TCP's
    /// sockets beside those of the configuration.
    pub(crate) fn new(host: Host, ip_mtu: usize, config: &Config, now: Instant) -> Shared {
        let inner = Inner {
            host,
            tcp: None,
            config: config.tcp,
            tcp_sockets: 0,
            tcp_rooms: (0, 0),
            now,
            tcp_changed: false,
            open: 0,
            sockets: config.sockets,
        };
        let (is_taken, seed) = (AtomicBool::new(false), AtomicU64::new(config.random_seed));
        Shared(Arc::new(Lock { is_taken, inner: UnsafeCell::new(inner), ip_mtu, seed }))
    }

    /// A seed for a client of DHCP or DNS, another one for each.
    #[cfg_attr(not(feature = "socket-dhcpv4"), allow(dead_code, reason = "there may be no clients"))]
    pub(crate) fn next_seed(&self) -> u64 {
        // 2^64 by the golden ratio, so that seeds which are near each other don't meet.
        self.0.seed.fetch_add(0x9e37_79b9_7f4a_7c15, SeqCst)
    }

    pub(crate) fn ip_mtu(&self) -> usize {
        self.0.ip_mtu
    }

    /// Whether it is the same host.
    pub(crate) fn is(&self, other: &Shared) -> bool {
        Arc::ptr_eq(&self.0, &other.0)
    }

    /// Calls the host.
    #[inline]
    pub(crate) fn with<R>(&self, f: impl FnOnce(&mut Host) -> R) -> R {
        self.whole(|inner| f(&mut inner.host))
    }

    /// Opens a socket by `f`, if fewer are open than may be.
    pub(crate) fn open<R>(&self, f: impl FnOnce(&mut Host) -> Result<R, Error>) -> Result<R, Error> {
        self.take_places(1, f)
    }

    /// Takes so many places for sockets, by `f`, if they are free.
    pub(crate) fn take_places<R>(&self, count: u32, f: impl FnOnce(&mut Host) -> Result<R, Error>) -> Result<R, Error> {
        self.whole(|inner| {
            if inner.sockets.saturating_sub(inner.open) < count {
                return Err(Error::TableFull);
            }
            let opened = f(&mut inner.host)?;
            inner.open += count;
            Ok(opened)
        })
    }

    /// Closes a socket that [`open`](Shared::open) opened.
    pub(crate) fn close(&self, number: u32) {
        self.free_places(1, |host| {
            // It is open by this number.
            let _ = host.close(number);
        });
    }

    /// Frees so many places that were taken, by `f`.
    pub(crate) fn free_places(&self, count: u32, f: impl FnOnce(&mut Host)) {
        self.whole(|inner| {
            inner.open -= count;
            f(&mut inner.host);
        });
    }

    /// Takes a frame, and returns the length of the one in response, which is in `out`.
    #[inline]
    pub(crate) fn receive(&self, now: Instant, frame: &[u8], out: &mut Frame) -> Option<usize> {
        self.whole(|inner| {
            let length = inner.host.receive(now, frame, out).ok().flatten().map(<[u8]>::len);
            inner.poll_tcp(now);
            length
        })
    }

    /// Has the next frame that is to be sent in `out`, and returns its length.
    #[inline]
    pub(crate) fn next(&self, now: Instant, out: &mut Frame) -> Option<usize> {
        self.whole(|inner| {
            inner.poll_tcp(now);
            inner.host.next(now, out).ok().flatten().map(<[u8]>::len)
        })
    }

    /// When it is to be polled again: `None`, if nothing is due by itself.
    #[inline]
    pub(crate) fn poll_at(&self, now: Instant) -> Option<Instant> {
        self.whole(|inner| {
            let tcp = inner.tcp.as_mut().and_then(|tcp| tcp.poll_at());
            inner.host.poll_at(now).into_iter().chain(tcp).min()
        })
    }

    /// Whether it has connections of TCP.
    #[inline]
    pub(crate) fn has_tcp(&self) -> bool {
        self.whole(|inner| inner.tcp.is_some())
    }

    /// Whether a connection has changed since this was last asked.
    #[inline]
    pub(crate) fn tcp_changed(&self) -> bool {
        self.whole(|inner| core::mem::take(&mut inner.tcp_changed))
    }

    /// Calls the host or its connections. `f` is a few calls of the library, and never one of the program's functions: so
    /// another thread waits for microseconds, and nothing waits for itself.
    #[inline]
    pub(crate) fn whole<R>(&self, f: impl FnOnce(&mut Inner) -> R) -> R {
        while self.0.is_taken.swap(true, SeqCst) {
            #[cfg(feature = "std")]
            std::thread::yield_now();
            #[cfg(not(feature = "std"))]
            core::hint::spin_loop();
        }
        let _gives_back = GivesBack(&self.0.is_taken);
        // SAFETY: whoever set `is_taken` has what is inside alone until `_gives_back` is dropped, and `f` can't keep the
        // reference.
        f(unsafe { &mut *self.0.inner.get() })
    }
}

impl fmt::Debug for Shared {
    fn fmt(&self, f: &mut fmt::Formatter<'_>) -> fmt::Result {
        f.write_str("Shared")
    }
}

#[cfg(all(test, feature = "std"))]
mod tests {
    use super::{Config, Shared};
    use crate::host::{Host, Settings};
    use crate::time::Instant;
    use crate::wire::HardwareAddress;
    use core::sync::atomic::{AtomicUsize, Ordering::SeqCst};

    /// No two threads are in a call at a time, and a panic in one gives the host back.
    #[test]
    fn one_thread_at_a_time_has_the_host() {
        let host = Host::new(&Settings::new(HardwareAddress::Ip)).unwrap();
        let host = Shared::new(host, 1500, &Config::new(HardwareAddress::Ip), Instant::ZERO);
        let (inside, calls) = (AtomicUsize::new(0), AtomicUsize::new(0));
        std::thread::scope(|scope| {
            for _ in 0..4 {
                scope.spawn(|| {
                    for _ in 0..200 {
                        host.with(|_| {
                            assert_eq!(inside.fetch_add(1, SeqCst), 0);
                            std::thread::yield_now();
                            calls.fetch_add(1, SeqCst);
                            inside.fetch_sub(1, SeqCst);
                        });
                    }
                });
            }
        });
        assert_eq!(calls.into_inner(), 800);
        let panics = std::panic::catch_unwind(std::panic::AssertUnwindSafe(|| host.with(|_| panic!("in a call"))));
        assert!(panics.is_err());
        assert_eq!(host.with(Host::given_up_count), 0);
    }
}
