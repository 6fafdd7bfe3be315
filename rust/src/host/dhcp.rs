//! Clients of DHCP (RFC 2131), each for a host: the library's calls for them, as safe methods.
use super::{Error, Host, NO_ADDRESS, answer, to_c, unless_empty, until_from_c};
use crate::sys;
use crate::time::Instant;
use crate::wire::{Ipv4Address, Ipv4Cidr};

/// What a server leased.
#[derive(Clone, Copy, Debug, PartialEq, Eq)]
#[non_exhaustive]
pub struct Lease {
    /// The address with its network: of 32 bits, if the server told no mask.
    pub address: Ipv4Cidr,
    /// The router of the default route, if the server told one. Where it told routes, that of the default route among them, or none
    /// (RFC 3442).
    pub router: Option<Ipv4Address>,
    /// The identifier of the server that leased it.
    pub server: Ipv4Address,
    /// Servers of names, as many as the server told, from the first place on.
    pub dns_servers: [Option<Ipv4Address>; 3],
    /// The longest packet of the network, of 68 octets or more, if the server told it.
    pub mtu: Option<u16>,
    /// When it ends, unless it is renewed before. `None` is never.
    pub expires_at: Option<Instant>,
}

impl Lease {
    /// What stands where the library is to write a lease.
    const NONE: sys::iface_lease = sys::iface_lease {
        address: NO_ADDRESS,
        router: NO_ADDRESS,
        server: NO_ADDRESS,
        dns_servers: [NO_ADDRESS; 3],
        prefix_len: 0,
        mtu: 0,
        expires_at: 0,
    };

    fn from_c(lease: &sys::iface_lease) -> Lease {
        Lease {
            address: Ipv4Cidr::new(ipv4_from_c(&lease.address), lease.prefix_len.min(32)),
            router: told(&lease.router),
            server: ipv4_from_c(&lease.server),
            dns_servers: lease.dns_servers.each_ref().map(told),
            mtu: (lease.mtu != 0).then_some(lease.mtu),
            expires_at: until_from_c(lease.expires_at),
        }
    }
}

fn ipv4_from_c(address: &sys::iface_address) -> Ipv4Address {
    let [a, b, c, d, ..] = address.octets;
    Ipv4Address::new(a, b, c, d)
}

/// An address that the server told, if it did.
fn told(address: &sys::iface_address) -> Option<Ipv4Address> {
    (address.version != 0).then(|| ipv4_from_c(address))
}

/// What has become of a lease.
#[derive(Clone, Copy, Debug, PartialEq, Eq)]
pub enum LeaseEvent {
    /// There is one: a new one, or one that was renewed.
    Configured,
    /// There is none any more, or it was declined: its address must not be used.
    Deconfigured,
}

/// A client that leases an IPv4 address for a host, which needs none before: the library's own calls. It goes with the host
/// that it was made for. It needs no allocator in Rust, and goes from thread to thread.
///
/// ```
/// # use fumitorygate::{Dhcp, Host, Settings, time::Instant, wire::EthernetAddress};
/// # fn main() -> Result<(), fumitorygate::Error> {
/// # let (now, mut out) = (Instant::ZERO, [0; fumitorygate::FRAME_ROOM]);
/// # let mut host = Host::new(&Settings::new(EthernetAddress([2, 0, 0, 0, 0, 1]).into()))?;
/// let mut client = Dhcp::new(&mut host, 0x5eed, None)?;
/// // After each frame that came, and at the instant below:
/// if client.poll(&mut host, now)?.is_some() {
///     client.apply(&mut host)?;
/// }
/// while let Some(frame) = host.next(now, &mut out)? {
///     // it is sent
/// #   assert_eq!(frame[..6], [0xff; 6]);
/// }
/// let wake = client.poll_at().into_iter().chain(host.poll_at(now)).min();
/// # client.free(&mut host);
/// # Ok(())
/// # }
/// ```
#[derive(Debug)]
pub struct Dhcp {
    raw: sys::iface_dhcp,
}

// SAFETY: `iface.h` says that a client's handle is kept as that of a host, whose calls may each be in another thread, and
// that two handles share nothing. No method takes `&self`.
unsafe impl Send for Dhcp {}

/// A call of the library on a client's handle. Its pointers are all made from references in the call itself.
macro_rules! call {
    ($client:ident . $name:ident ( $($argument:expr),* )) => {
        // SAFETY: the handle is the library's and borrowed for this call. Pointers are those of references, so they are not
        // null, are to whole values, and don't overlap where one is written.
        answer(unsafe { sys::$name(&mut $client.raw, $($argument),*) })
    };
}

impl Drop for Dhcp {
    fn drop(&mut self) {
        let mut no_host = sys::iface::NONE;
        // It is refused only without a client.
        let _ = call!(self.iface_dhcp_free(&mut no_host));
    }
}

impl Dhcp {
    /// Makes a client for a host, which takes two places for sockets: for its UDP socket of port 68, and for a raw one, which is open
    /// from the first message on as long as there is no lease. The seed is of the numbers by which its messages are
    /// known: another for each host and each start. `known` is an address that the host had before, which it asks for
    /// first.
    ///
    /// # Errors
    /// [`Error::NotThere`] on a medium without hardware addresses, [`Error::TableFull`] if fewer
    /// than two of [`Settings::sockets`](super::Settings::sockets) are free, [`Error::NoMemory`].
    pub fn new(host: &mut Host, seed: u64, known: Option<Ipv4Address>) -> Result<Dhcp, Error> {
        let mut client = Dhcp { raw: sys::iface_dhcp::NONE };
        let known = known.map_or(NO_ADDRESS, |known| to_c(&known.into()));
        call!(client.iface_dhcp_new(&mut host.raw, seed, &known))?;
        Ok(client)
    }

    /// Sets the codes of the options that servers are asked for, in place of those before, in all messages from then on. The client
    /// asks for 1, 3, 6, 26 and 121 itself.
    ///
    /// # Errors
    /// [`Error::TooLong`] if there are more than 16.
    pub fn set_parameters(&mut self, codes: &[u8]) -> Result<(), Error> {
        call!(self.iface_dhcp_parameters(codes.as_ptr(), codes.len()))
    }

    /// Sets the name of the host, which is in all messages from then on (RFC 2132 3.14); an empty one is none.
    ///
    /// # Errors
    /// [`Error::TooLong`] if it has more than 63 octets.
    pub fn set_host_name(&mut self, name: &str) -> Result<(), Error> {
        call!(self.iface_dhcp_host_name(name.as_ptr().cast(), name.len()))
    }

    /// Does what is due: it takes what came to port 68, queues the message that is to be sent now, and tells what has become
    /// of the lease since the last call. A message for which there is no room or no memory counts as lost, and is sent again
    /// later; [`lost`](Dhcp::lost) tells why.
    ///
    /// # Errors
    /// [`Error::NoSocket`] if the host hasn't the client's socket.
    pub fn poll(&mut self, host: &mut Host, now: Instant) -> Result<Option<LeaseEvent>, Error> {
        let mut event = 0;
        call!(self.iface_dhcp_poll(&mut host.raw, now.total_micros(), &mut event))?;
        Ok(match u8::try_from(event) {
            Ok(sys::IFACE_DHCP_CONFIGURED) => Some(LeaseEvent::Configured),
            Ok(sys::IFACE_DHCP_DECONFIGURED) => Some(LeaseEvent::Deconfigured),
            _ => None,
        })
    }

    /// The instant at which [`poll`](Dhcp::poll) is to be called again, if nothing comes before. `None` only for a lease
    /// without end.
    pub fn poll_at(&mut self) -> Option<Instant> {
        let mut at = sys::IFACE_NEVER;
        // It is refused only without a client.
        let _ = call!(self.iface_dhcp_poll_at(&mut at));
        until_from_c(at)
    }

    /// Why the message that was due last is lost, if it is: [`Error::NoMemory`] for the raw socket, [`Error::QueueFull`] while the message
    /// before waits, [`Error::TableFull`] where other sockets took the place while memory was refused.
    pub fn lost(&mut self) -> Option<Error> {
        let mut why = 0;
        // It is refused only without a client.
        let _ = call!(self.iface_dhcp_lost(&mut why));
        answer(why).err()
    }

    /// The lease that it has, if it has one.
    pub fn lease(&mut self) -> Option<Lease> {
        let mut lease = Lease::NONE;
        // But for a lease that isn't there it is refused only without a client.
        let is_there = unless_empty(call!(self.iface_dhcp_lease(&mut lease))).unwrap_or(false);
        is_there.then(|| Lease::from_c(&lease))
    }

    /// Writes the octets of an option of the lease, put together (RFC 3396), to the front of a buffer, and returns how many there are.
    /// Of more than 256 the first ones count.
    ///
    /// # Errors
    /// [`Error::Empty`] if there is no lease, or no such option; [`Error::NoRoom`] if the buffer is shorter.
    pub fn option(&mut self, code: u8, out: &mut [u8]) -> Result<usize, Error> {
        let mut length = 0;
        call!(self.iface_dhcp_option(code, out.as_mut_ptr(), out.len(), &mut length))?;
        Ok(length)
    }

    /// Gives the host the address of the lease, its router as a default route, and up to eight other routes of option 121 (RFC 3442),
    /// after the others; in place of those that the client gave it before, and none without a lease. It forgets all neighbours, unless
    /// address, network and router are the same as before. A route of option 121 is left out where there is no room for it, or where its
    /// router is 0.0.0.0.
    ///
    /// # Errors
    /// [`Error::TableFull`] if four other addresses or routes are there, [`Error::NotUnicast`] if one of all own addresses
    /// can't be one.
    pub fn apply(&mut self, host: &mut Host) -> Result<(), Error> {
        call!(self.iface_dhcp_apply(&mut host.raw))
    }

    /// Lets the address of each lease be tested before it is used, and announced (RFC 5227 2.1.1, 2.3), or not; it is on by default.
    /// [`poll`](Dhcp::poll) then tells of a lease four to seven seconds after the server's answer. One that another host has is declined,
    /// and the client asks for offers after ten seconds, or after a minute from the tenth on. It belongs behind [`new`](Dhcp::new).
    pub fn set_probing(&mut self, on: bool) {
        // It is refused only without a client.
        let _ = call!(self.iface_dhcp_set_probing(on.into()));
    }

    /// How many leases it has declined, 255 at most.
    pub fn declined(&mut self) -> u8 {
        let mut count = 0;
        // It is refused only without a client.
        let _ = call!(self.iface_dhcp_declined(&mut count));
        count
    }

    /// Releases the lease: the message to its server waits at the client's socket, and the lease is given up. Send what the host has to
    /// send, and then call [`apply`](Dhcp::apply), which takes the address: a client that is polled again asks for offers.
    ///
    /// # Errors
    /// [`Error::Empty`] if there is no lease.
    pub fn release(&mut self, host: &mut Host) -> Result<(), Error> {
        call!(self.iface_dhcp_release(&mut host.raw))
    }

    /// Is called once a link came up: gives up the lease, if there is one, and asks for its address again (RFC 2131 3.2). Where the
    /// link leads to another network the server refuses it, and the client asks for offers. The next [`poll`](Dhcp::poll) tells of a
    /// lease that is gone.
    pub fn reset(&mut self) {
        // It is refused only without a client.
        let _ = call!(self.iface_dhcp_reset());
    }

    /// Closes its sockets of the host, which stay open where it is dropped. What it gave the host stays.
    pub fn free(mut self, host: &mut Host) {
        // It is refused only without a client.
        let _ = call!(self.iface_dhcp_free(&mut host.raw));
    }
}
