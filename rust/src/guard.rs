//! The guard in front of a host: what it drops before the host sees it, and what it leaves of what a frame changed.
use crate::sys;
use crate::time::{Duration, Instant};
use crate::wire::EthernetAddress;

/// A rate: one in each interval, and so many at once.
#[derive(Clone, Copy, Debug, PartialEq, Eq)]
pub struct Rate {
    /// The interval: whole microseconds, at most 4,294 seconds. Zero sets no bound.
    pub interval: Duration,
    /// How many at once.
    pub at_once: u32,
}

impl Rate {
    fn to_c(rate: Option<Rate>) -> sys::iface_rate {
        match rate {
            Some(rate) => sys::iface_rate { interval: micros(rate.interval), at_once: rate.at_once },
            None => sys::iface_rate { interval: 0, at_once: 0 },
        }
    }

    fn from_c(rate: sys::iface_rate) -> Option<Rate> {
        (rate.interval != 0)
            .then(|| Rate { interval: Duration::from_micros(u64::from(rate.interval)), at_once: rate.at_once })
    }
}

/// A time in microseconds, and the longest one that has 32 bits where it is longer.
fn micros(time: Duration) -> u32 {
    u32::try_from(time.total_micros()).unwrap_or(u32::MAX)
}

/// The guard in front of a host on Ethernet: what it drops before the host sees it, what it leaves of what a frame changed, and
/// which answers to strangers it holds back. [`Settings::new`](crate::Settings::new) has the usual one. Each rule can be off.
/// smoltcp has none such.
///
/// A neighbour is confirmed if its entry ends later than that of a stranger would who comes now. While fewer than half of the entries
/// are confirmed, a neighbour's packet confirms it, and so does its answer to a request of the host. An entry that isn't confirmed
/// gives way to others before one that is.
#[derive(Clone, Copy, Debug, PartialEq, Eq)]
#[non_exhaustive]
pub struct Guard {
    /// Whether what claims an own address for another hardware address than the own one is dropped (RFC 5227 2.4), or comes from
    /// one by another.
    pub own_addresses: bool,
    /// Whether datagrams of UDP are dropped that come from port 7, 13, 17 or 19, and go to a port below 1024.
    pub loops: bool,
    /// Whether fragments are dropped: not by the usual guard.
    pub fragments: bool,
    /// How long a neighbour is known that isn't confirmed: 20 s by the usual guard. `None`: as long as any other, which is 60 s.
    /// Whole microseconds, at most 4,294 seconds.
    pub strangers_stay: Option<Duration>,
    /// Whether sockets and frames take turns in asking for neighbours: while a socket waits for its neighbour, no frame has the host
    /// ask for its sender within three seconds after one did, unless a socket asked since, or who was asked for is known.
    pub turns: bool,
    /// Whether answers that wait stay: a query of IGMP or MLD doesn't take the place of one that has still to report the same, and no
    /// later, and none about 224.0.0.1 or ff02::1 takes a place.
    pub reports: bool,
    /// Whether an advertisement from which no prefix and no router is learnt leaves the neighbours.
    pub routers: bool,
    /// Whether half of the slots for fragments are kept for known neighbours: strangers' packets take no more than the other half.
    pub slots: bool,
    /// Echo requests of either ICMP, and fragments of ICMP, that the host gets to see: without a rate by the usual guard.
    pub echo_requests: Option<Rate>,
    /// Errors of either ICMP (RFC 4443 2.4). While a rate of these or of resets is used up, confirmed neighbours have as many.
    pub errors: Option<Rate>,
    /// Resets of TCP, likewise.
    pub resets: Option<Rate>,
    /// How many times as long an error may be as the frame that it answers: three by the usual guard. `None` sets no bound.
    pub longest_error: Option<u32>,
    /// If an own IPv4 address is claimed, it is announced, but not again within this time (RFC 5227 2.4 c, which has ten seconds): not
    /// by the usual guard.
    pub defend: Option<Duration>,
}

impl Guard {
    /// What a configuration has in the place of a guard, where there is none.
    pub(crate) const OFF: sys::iface_guard = sys::iface_guard {
        echo_requests: sys::iface_rate { interval: 0, at_once: 0 },
        errors: sys::iface_rate { interval: 0, at_once: 0 },
        resets: sys::iface_rate { interval: 0, at_once: 0 },
        strangers_stay: 0,
        on: 0,
        own_addresses: 0,
        loops: 0,
        fragments: 0,
        turns: 0,
        reports: 0,
        routers: 0,
        slots: 0,
        longest_error: 0,
        defend: 0,
    };

    pub(crate) fn to_c(self) -> sys::iface_guard {
        sys::iface_guard {
            echo_requests: Rate::to_c(self.echo_requests),
            errors: Rate::to_c(self.errors),
            resets: Rate::to_c(self.resets),
            strangers_stay: self.strangers_stay.map_or(0, micros),
            on: 1,
            own_addresses: u8::from(self.own_addresses),
            loops: u8::from(self.loops),
            fragments: u8::from(self.fragments),
            turns: u8::from(self.turns),
            reports: u8::from(self.reports),
            routers: u8::from(self.routers),
            slots: u8::from(self.slots),
            longest_error: self.longest_error.unwrap_or(0),
            defend: self.defend.map_or(0, micros),
        }
    }

    pub(crate) fn from_c(guard: sys::iface_guard) -> Option<Guard> {
        (guard.on != 0).then(|| Guard {
            own_addresses: guard.own_addresses != 0,
            loops: guard.loops != 0,
            fragments: guard.fragments != 0,
            strangers_stay: (guard.strangers_stay != 0).then(|| Duration::from_micros(u64::from(guard.strangers_stay))),
            turns: guard.turns != 0,
            reports: guard.reports != 0,
            routers: guard.routers != 0,
            slots: guard.slots != 0,
            echo_requests: Rate::from_c(guard.echo_requests),
            errors: Rate::from_c(guard.errors),
            resets: Rate::from_c(guard.resets),
            longest_error: (guard.longest_error != 0).then_some(guard.longest_error),
            defend: (guard.defend != 0).then(|| Duration::from_micros(u64::from(guard.defend))),
        })
    }
}

/// How many frames a guard dropped, by the reason, and how many answers it held back. What is dropped isn't counted among
/// the frames that the host took. A number stays at the greatest one.
#[derive(Clone, Copy, Debug, Default, PartialEq, Eq)]
#[non_exhaustive]
pub struct Drops {
    /// Messages that claim an own address.
    pub own_address: u64,
    /// Packets from an own address.
    pub own_source: u64,
    /// Messages that tell another hardware address of a pinned neighbour.
    pub pinned: u64,
    /// Fragments, and those of strangers for which no slot is left, as half are kept for known neighbours.
    pub fragment: u64,
    /// Datagrams that could go to and fro for ever.
    pub loops: u64,
    /// Echo requests, and fragments of ICMP, beyond their rate.
    pub echo_request: u64,
    /// Errors of either ICMP that were held back.
    pub error: u64,
    /// Resets that were held back.
    pub reset: u64,
}

impl Drops {
    pub(crate) fn from_c(drops: sys::iface_drops) -> Drops {
        Drops {
            own_address: drops.own_address,
            own_source: drops.own_source,
            pinned: drops.pinned,
            fragment: drops.fragment,
            loops: drops.loops,
            echo_request: drops.echo_request,
            error: drops.error,
            reset: drops.reset,
        }
    }
}

/// Who claimed an own address (RFC 5227 2.4), or one that is pinned.
#[derive(Clone, Copy, Debug, PartialEq, Eq)]
pub struct Conflict {
    /// The hardware address that the frame came from.
    pub hardware_addr: EthernetAddress,
    /// The instant at which it came.
    pub at: Instant,
}
