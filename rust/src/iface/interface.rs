//! Interfaces.
use super::{Addresses, Context, RouteList, Routes, SocketSet};
use crate::guard::{Conflict, Drops, Guard};
use crate::host::{Counters, Error, FRAME_ROOM, Frame, Host, Neighbor, Settings};
use crate::phy::{Device, DeviceCapabilities, Medium, RxToken, TxToken};
use crate::shared::{Shared, TCP_SOCKETS, TcpConfig};
use crate::time::{Duration, Instant};
use crate::wire::{EthernetAddress, HardwareAddress, IpAddress, Ipv4Address, Ipv6Address};
use alloc::boxed::Box;
use alloc::vec::Vec;
use core::fmt;

/// How an interface is to be made.
#[derive(Clone, Copy, Debug, PartialEq, Eq)]
#[non_exhaustive]
pub struct Config {
    /// The seed of its random words, which need not be secret: another for each interface and each start.
    pub random_seed: u64,
    /// Its hardware address, of the device's medium.
    pub hardware_addr: HardwareAddress,
    /// Whether it takes addresses and routes from IPv6 routers (RFC 4862).
    pub slaac: bool,
    /// How many sockets may be open at once, but TCP's, which don't count. Memory for their places is taken at once.
    /// smoltcp has none such.
    pub sockets: u32,
    /// How many neighbours it knows at once, of both versions together, in memory that is taken at once. 0 is four,
    /// without such memory. smoltcp sets this when it is compiled.
    pub neighbors: u32,
    /// For how many own addresses there is room, those from routers included: 4 to 16. Less is 4, more is 16. smoltcp
    /// sets this and the next five when it is compiled.
    pub addresses: u32,
    /// For how many routes there is room, at most 32, in memory that is taken at once. 0 is four, without such memory.
    pub routes: u32,
    /// For how many groups there is room, at most 16. On Ethernet the solicited-node groups of own IPv6 addresses are
    /// among them.
    pub groups: u32,
    /// How many prefixes of routers are kept, at most 8.
    pub prefixes: u32,
    /// How many routers are kept, at most 8.
    pub routers: u32,
    /// How many packets in fragments are put together at a time, in memory that is taken at once. 0 is two, without such
    /// memory.
    pub fragmented: u32,
    /// How long a packet waits for a neighbour that doesn't answer, before it is given up. Zero is for ever, as in
    /// smoltcp: then one such packet stops those behind it for neighbours that aren't known.
    pub patience: Duration,
    /// How long fragments of a packet wait for the others: not zero, at most a day. smoltcp has
    /// [`set_reassembly_timeout`](Interface::set_reassembly_timeout) alone.
    pub reassembly_timeout: Duration,
    /// The guard in front of it, if there is one. Without hardware addresses it does nothing. smoltcp has none such.
    pub guard: Option<Guard>,
    /// How connections of TCP are to be made, when the first socket listens or connects. smoltcp has none such.
    pub tcp: TcpConfig,
}

impl Config {
    /// What most programs want, but for the seed, which is 0: 8 sockets, room for 128 neighbours, 8 addresses, 8 routes and
    /// 16 groups, 4 prefixes, 4 routers and 8 packets in fragments, no addresses from routers, a patience of three
    /// seconds, ten seconds for fragments, and a guard. It is what `iface_config_init` writes.
    pub fn new(hardware_addr: HardwareAddress) -> Config {
        let settings = Settings::new(hardware_addr);
        Config {
            random_seed: settings.random_seed,
            hardware_addr,
            slaac: settings.slaac,
            sockets: settings.sockets,
            neighbors: settings.neighbors,
            addresses: settings.addresses,
            routes: settings.routes,
            groups: settings.groups,
            prefixes: settings.prefixes,
            routers: settings.routers,
            fragmented: settings.fragmented,
            patience: settings.patience,
            reassembly_timeout: settings.reassembly_timeout,
            guard: settings.guard,
            tcp: TcpConfig::default(),
        }
    }

    fn settings(&self, capabilities: &DeviceCapabilities, start: Instant) -> Settings {
        let mut settings = Settings::new(self.hardware_addr);
        settings.random_seed = self.random_seed;
        // Never more than FRAME_ROOM, which has 32 bits.
        settings.frame_len = capabilities.max_transmission_unit as u32;
        settings.slaac = self.slaac;
        settings.sockets = self.sockets.saturating_add(TCP_SOCKETS);
        settings.neighbors = self.neighbors;
        settings.addresses = self.addresses;
        settings.routes = self.routes;
        settings.groups = self.groups;
        settings.prefixes = self.prefixes;
        settings.routers = self.routers;
        settings.fragmented = self.fragmented;
        settings.patience = self.patience;
        settings.reassembly_timeout = self.reassembly_timeout;
        settings.guard = self.guard;
        settings.start = start;
        settings.checksum = capabilities.checksum;
        settings.burst = capabilities.max_burst_size.map(|frames| u32::try_from(frames).unwrap_or(u32::MAX));
        settings
    }
}

/// What a poll may have changed.
#[derive(Clone, Copy, Debug, PartialEq, Eq)]
pub enum PollResult {
    /// No socket has changed.
    None,
    /// Sockets may have: a frame was taken, or a packet of a socket was sent, dropped or given up.
    SocketStateChanged,
}

/// What became of a frame.
#[derive(Clone, Copy, Debug, PartialEq, Eq)]
pub enum PollIngressSingleResult {
    /// There was none. No socket has changed.
    None,
    /// It was taken, and no socket has changed. As in smoltcp, that is said of an empty frame alone.
    PacketProcessed,
    /// It was taken, and sockets may have changed.
    SocketStateChanged,
}

/// Why a group isn't joined or left.
#[derive(Clone, Copy, Debug, PartialEq, Eq)]
pub enum MulticastError {
    /// There is no room for another.
    GroupTableFull,
    /// The address is no group's.
    Unaddressable,
}

impl fmt::Display for MulticastError {
    fn fmt(&self, f: &mut fmt::Formatter<'_>) -> fmt::Result {
        f.write_str(match self {
            MulticastError::GroupTableFull => "GroupTableFull",
            MulticastError::Unaddressable => "Unaddressable",
        })
    }
}

impl core::error::Error for MulticastError {}

impl From<Error> for MulticastError {
    fn from(error: Error) -> MulticastError {
        match error {
            Error::TableFull => MulticastError::GroupTableFull,
            _ => MulticastError::Unaddressable,
        }
    }
}

/// A network interface.
///
/// It goes to another thread, with its sockets:
///
/// ```
/// fn crosses<T: Send>() {}
/// crosses::<fumitorygate::iface::Interface>();
/// crosses::<fumitorygate::iface::SocketSet<'static>>();
/// ```
///
/// A frame that it shows is read before it is called again:
///
/// ```compile_fail,E0499
/// use fumitorygate::{iface::{Interface, SocketSet}, time::Instant};
/// fn two<'i>(iface: &'i mut Interface, sockets: &mut SocketSet<'_>) -> [Option<&'i [u8]>; 2] {
///     [iface.next_frame(Instant::ZERO, sockets), iface.next_frame(Instant::ZERO, sockets)]
/// }
/// ```
///
/// and so is a packet that a socket lends:
///
/// ```compile_fail,E0499
/// fn two<'s>(socket: &'s mut fumitorygate::socket::udp::Socket<'_>) -> [&'s [u8]; 2] {
///     [socket.recv().unwrap().0, socket.recv().unwrap().0]
/// }
/// ```
#[derive(Debug)]
pub struct Interface {
    pub(super) host: Shared,
    context: Context,
    out: Box<Frame>,
    /// How many packets were given up when it was last asked whether sockets changed.
    given_up: u64,
    /// Whether a client of DHCP has an event, or one of DNS a result, that wasn't told by `sockets_changed`.
    is_news: bool,
    addr_room: usize,
    routes: Routes,
}

impl Interface {
    /// An interface over a device, whose medium, length of frames and checksums it takes. It begins at `now`.
    ///
    /// # Panics
    /// If the hardware address isn't of the device's medium, or isn't unicast, as smoltcp's; and where else
    /// [`try_new`](Interface::try_new) has an error.
    pub fn new(config: Config, device: &mut (impl Device + ?Sized), now: Instant) -> Interface {
        Interface::try_new(config, device, now).unwrap_or_else(|error| panic!("making an interface: {error}"))
    }

    /// An interface over a device, as [`new`](Interface::new) makes one. smoltcp has none such.
    ///
    /// # Errors
    /// [`Error::BadArgument`] if the hardware address isn't of the device's medium; [`Error::NotUnicast`],
    /// [`Error::BadMtu`], [`Error::BadTimeout`], [`Error::NoMemory`], [`Error::OtherVersion`].
    pub fn try_new(config: Config, device: &mut (impl Device + ?Sized), now: Instant) -> Result<Interface, Error> {
        let mut capabilities = device.capabilities();
        capabilities.max_transmission_unit = capabilities.max_transmission_unit.min(FRAME_ROOM);
        match (capabilities.medium, config.hardware_addr) {
            (Medium::Ip, HardwareAddress::Ip) | (Medium::Ethernet, HardwareAddress::Ethernet(_)) => {}
            _ => return Err(Error::BadArgument),
        }
        let settings = config.settings(&capabilities, now);
        let host = Host::new(&settings)?;
        let host = Shared::new(host, capabilities.ip_mtu(), &config, now);
        Ok(Interface {
            context: Context(host.clone()),
            routes: Routes {
                host: host.clone(),
                room: if config.routes == 0 { 4 } else { config.routes.min(32) as usize },
            },
            host,
            out: Box::new([0; FRAME_ROOM]),
            given_up: 0,
            is_news: false,
            addr_room: config.addresses.clamp(4, 16) as usize,
        })
    }

    /// What a socket of TCP connects by, and a client of DNS starts a query by.
    pub fn context(&mut self) -> &mut Context {
        &mut self.context
    }

    /// Its hardware address.
    pub fn hardware_addr(&self) -> HardwareAddress {
        self.host.with(Host::hardware_address).map_or(HardwareAddress::Ip, HardwareAddress::Ethernet)
    }

    /// Sets its hardware address: frames are sent from it from now on, and those to it are taken. Addresses and groups
    /// stay.
    ///
    /// # Panics
    /// If it isn't unicast, or the device's medium has none, as smoltcp's.
    pub fn set_hardware_addr(&mut self, addr: HardwareAddress) {
        self.try_set_hardware_addr(addr).unwrap_or_else(|error| panic!("setting a hardware address: {error}"));
    }

    /// Sets its hardware address, as [`set_hardware_addr`](Interface::set_hardware_addr) does. smoltcp has none such.
    ///
    /// # Errors
    /// [`Error::BadArgument`] if it isn't of the device's medium, or that has none; [`Error::NotUnicast`].
    pub fn try_set_hardware_addr(&mut self, addr: HardwareAddress) -> Result<(), Error> {
        let HardwareAddress::Ethernet(addr) = addr else { return Err(Error::BadArgument) };
        self.host.with(|host| host.set_hardware_address(addr)).map_err(|error| match error {
            Error::NotThere => Error::BadArgument,
            other => other,
        })
    }

    /// Its addresses with their networks, those from routers included: a copy.
    pub fn ip_addrs(&self) -> Addresses {
        self.host.with(|host| Addresses::of(host, self.addr_room))
    }

    /// Its first IPv4 address.
    pub fn ipv4_addr(&self) -> Option<Ipv4Address> {
        self.context.ipv4_addr()
    }

    /// Its first IPv6 address.
    pub fn ipv6_addr(&self) -> Option<Ipv6Address> {
        self.context.ipv6_addr()
    }

    /// Whether an address is one of its own.
    pub fn has_ip_addr<T: Into<IpAddress>>(&self, addr: T) -> bool {
        let addr = addr.into();
        self.ip_addrs().iter().any(|cidr| cidr.address() == addr)
    }

    /// Changes its addresses by `f`, all at once, and forgets all neighbours.
    ///
    /// # Panics
    /// If one of them is neither unicast nor unspecified, as smoltcp's.
    pub fn update_ip_addrs<F: FnOnce(&mut Addresses)>(&mut self, f: F) {
        self.try_update_ip_addrs(f).unwrap_or_else(|error| panic!("setting addresses: {error}"));
    }

    /// Changes its addresses by `f`, as [`update_ip_addrs`](Interface::update_ip_addrs) does. smoltcp has none such.
    ///
    /// # Errors
    /// [`Error::NotUnicast`], if one of them is neither unicast nor unspecified. Then nothing has changed.
    pub fn try_update_ip_addrs<F: FnOnce(&mut Addresses)>(&mut self, f: F) -> Result<(), Error> {
        let mut list = self.ip_addrs();
        f(&mut list);
        self.host.with(|host| host.set_addresses(&list))
    }

    /// The own address that packets to a destination are sent from, where their socket names none. For IPv4 it is the
    /// first one in the destination's subnet, else the first one; for IPv6 it is chosen by RFC 6724. `None` if there is
    /// no IPv4 address for an IPv4 destination.
    pub fn get_source_address(&self, dst_addr: &IpAddress) -> Option<IpAddress> {
        self.context.get_source_address(dst_addr)
    }

    /// The own address that packets to an IPv4 destination are sent from: the first one in its subnet, else the first
    /// one. `None` if there is none.
    pub fn get_source_address_ipv4(&self, dst_addr: &Ipv4Address) -> Option<Ipv4Address> {
        match self.get_source_address(&IpAddress::Ipv4(*dst_addr))? {
            IpAddress::Ipv4(address) => Some(address),
            IpAddress::Ipv6(_) => None,
        }
    }

    /// The own address that packets to an IPv6 destination are sent from, by RFC 6724. ::1 if there is none.
    pub fn get_source_address_ipv6(&self, dst_addr: &Ipv6Address) -> Ipv6Address {
        match self.get_source_address(&IpAddress::Ipv6(*dst_addr)) {
            Some(IpAddress::Ipv6(address)) => address,
            _ => Ipv6Address::LOCALHOST,
        }
    }

    /// Joins a group: from now on packets to it are taken, and routers are told of it.
    ///
    /// # Errors
    /// [`MulticastError`].
    pub fn join_multicast_group<T: Into<IpAddress>>(&mut self, addr: T) -> Result<(), MulticastError> {
        Ok(self.host.with(|host| host.join_group(addr.into()))?)
    }

    /// Leaves a group, if it is in it.
    ///
    /// # Errors
    /// [`MulticastError::Unaddressable`].
    pub fn leave_multicast_group<T: Into<IpAddress>>(&mut self, addr: T) -> Result<(), MulticastError> {
        Ok(self.host.with(|host| host.leave_group(addr.into()))?)
    }

    /// Whether it is in a group. Beside those that it joined, it is in 224.0.0.1, and in ff02::1 and the solicited-node
    /// groups of its own addresses.
    pub fn has_multicast_group<T: Into<IpAddress>>(&self, addr: T) -> bool {
        self.host.with(|host| host.has_group(addr.into()))
    }

    /// Sets whether addresses that are routed to it count as its own; at first they don't. They are unicast addresses
    /// whose best route is by a router with one of [`ip_addrs`](Interface::ip_addrs).
    pub fn set_any_ip(&mut self, any_ip: bool) {
        self.host.with(|host| host.set_any_ip(any_ip));
    }

    /// Whether addresses that are routed to it count as its own.
    pub fn any_ip(&self) -> bool {
        self.host.with(Host::any_ip)
    }

    /// Sets how long fragments of a packet wait for the others: not zero, at most a day. A packet whose first fragment
    /// came before waits as long as was set then.
    ///
    /// # Errors
    /// [`Error::BadTimeout`].
    pub fn set_reassembly_timeout(&mut self, timeout: Duration) -> Result<(), Error> {
        self.host.with(|host| host.set_reassembly_timeout(timeout))
    }

    /// How long fragments of a packet wait for the others.
    pub fn reassembly_timeout(&self) -> Duration {
        self.host.with(Host::reassembly_timeout)
    }

    /// When its addresses and routes were last made those that routers advertise. [`Instant::ZERO`] before the first
    /// time.
    pub fn slaac_updated_at(&self) -> Instant {
        self.host.with(Host::slaac_updated_at)
    }

    /// Its routes, those from routers included, and those whose end has passed: a copy.
    pub fn routes(&self) -> RouteList {
        self.routes.list()
    }

    /// Its routes, to be changed.
    pub fn routes_mut(&mut self) -> &mut Routes {
        &mut self.routes
    }

    /// Takes the frames that a device has, sends what is to be sent, as long as the device gives permission, and tells
    /// whether sockets may have changed.
    ///
    /// # Panics
    /// If the sockets are another interface's, or come to this one and can't be opened.
    pub fn poll(
        &mut self,
        timestamp: Instant,
        device: &mut (impl Device + ?Sized),
        sockets: &mut SocketSet<'_>,
    ) -> PollResult {
        sockets.come_to(&self.host);
        while self.take_frame(timestamp, device) {
            // What connections answer goes before the next frame comes: there is room for one packet to a new peer.
            if self.host.has_tcp() {
                self.send_frames(timestamp, device);
            }
        }
        self.poll_egress(timestamp, device, sockets)
    }

    /// Takes one frame of a device.
    ///
    /// ```
    /// use fumitorygate::{iface::*, phy::*, time::Instant, wire::HardwareAddress};
    ///
    /// let mut device = MemoryDevice::new(Medium::Ip, 1500);
    /// let now = Instant::ZERO;
    /// let mut iface = Interface::new(Config::new(HardwareAddress::Ip), &mut device, now);
    /// let mut sockets = SocketSet::new(vec![]);
    /// device.incoming.extend([vec![], vec![0x45]]);
    /// let mut next = || iface.poll_ingress_single(now, &mut device, &mut sockets);
    /// assert_eq!(next(), PollIngressSingleResult::PacketProcessed);
    /// assert_eq!(next(), PollIngressSingleResult::SocketStateChanged);
    /// assert_eq!(next(), PollIngressSingleResult::None);
    /// ```
    ///
    /// # Panics
    /// If the sockets are another interface's, or come to this one and can't be opened.
    pub fn poll_ingress_single(
        &mut self,
        timestamp: Instant,
        device: &mut (impl Device + ?Sized),
        sockets: &mut SocketSet<'_>,
    ) -> PollIngressSingleResult {
        sockets.come_to(&self.host);
        let is_taken = self.take_frame(timestamp, device);
        self.step(timestamp, sockets);
        sockets.wake();
        if !is_taken {
            PollIngressSingleResult::None
        } else if self.sockets_changed() {
            PollIngressSingleResult::SocketStateChanged
        } else {
            PollIngressSingleResult::PacketProcessed
        }
    }

    /// Sends what is to be sent, as long as the device gives permission. That is asked for first, since the library
    /// hands a frame over for good.
    ///
    /// # Panics
    /// If the sockets are another interface's, or come to this one and can't be opened.
    pub fn poll_egress(
        &mut self,
        timestamp: Instant,
        device: &mut (impl Device + ?Sized),
        sockets: &mut SocketSet<'_>,
    ) -> PollResult {
        sockets.come_to(&self.host);
        self.step(timestamp, sockets);
        self.send_frames(timestamp, device);
        sockets.wake();
        if self.sockets_changed() { PollResult::SocketStateChanged } else { PollResult::None }
    }

    /// Does nothing: what smoltcp's does, the other polls do. It is there for programs that call it.
    pub fn poll_maintenance(&mut self, _timestamp: Instant) {}

    fn send_frames(&mut self, timestamp: Instant, device: &mut (impl Device + ?Sized)) {
        while let Some(tx) = device.transmit(timestamp) {
            let Some(len) = self.host.next(timestamp, &mut self.out) else { break };
            tx.consume(len, |frame| frame.copy_from_slice(&self.out[..len]));
        }
    }

    /// Takes one frame of a device, sends the one in response, and tells whether there was one.
    fn take_frame(&mut self, timestamp: Instant, device: &mut (impl Device + ?Sized)) -> bool {
        let Some((rx, tx)) = device.receive(timestamp) else { return false };
        let (host, out) = (&self.host, &mut self.out);
        let reply = rx.consume(|frame| host.receive(timestamp, frame, out));
        if let Some(len) = reply {
            tx.consume(len, |frame| frame.copy_from_slice(&out[..len]));
        }
        true
    }

    /// Whether sockets may have changed since this was last asked, or told by one of the polls: by a frame that was
    /// taken and isn't empty, by a packet of a socket that was sent, dropped or given up, or by the time, a connection of
    /// TCP. smoltcp has none such: it is for [`receive_frame`](Interface::receive_frame) and
    /// [`next_frame`](Interface::next_frame).
    pub fn sockets_changed(&mut self) -> bool {
        let (changed, given_up) = self.host.with(|host| (host.sockets_changed(), host.given_up_count()));
        let is_given_up = core::mem::replace(&mut self.given_up, given_up) != given_up;
        changed | is_given_up | self.host.tcp_changed() | core::mem::take(&mut self.is_news)
    }

    /// Takes a frame that is a slice, and shows the one to be sent in response, if any. smoltcp has none such. Where there
    /// are connections of TCP, [`next_frame`](Interface::next_frame) is to be called after each, until it shows none: for
    /// what they answer to new peers there is little room.
    ///
    /// # Panics
    /// If the sockets are another interface's, or come to this one and can't be opened.
    #[inline]
    pub fn receive_frame(&mut self, timestamp: Instant, frame: &[u8], sockets: &mut SocketSet<'_>) -> Option<&[u8]> {
        sockets.come_to(&self.host);
        let reply = self.host.receive(timestamp, frame, &mut self.out);
        self.step(timestamp, sockets);
        sockets.wake();
        self.out.get(..reply?)
    }

    /// Shows the next frame that is to be sent, if any. Where memory for a frame is refused, what waits is sent another
    /// time. smoltcp has none such.
    ///
    /// # Panics
    /// If the sockets are another interface's, or come to this one and can't be opened.
    #[inline]
    pub fn next_frame(&mut self, timestamp: Instant, sockets: &mut SocketSet<'_>) -> Option<&[u8]> {
        sockets.come_to(&self.host);
        self.step(timestamp, sockets);
        let next = self.host.next(timestamp, &mut self.out);
        sockets.wake();
        self.out.get(..next?)
    }

    /// The instant at which it is to be polled again, if no frame comes before and no call changes it: one that has
    /// passed, if something is due at once. `None`, if nothing is.
    ///
    /// # Panics
    /// If the sockets are another interface's.
    #[inline]
    pub fn poll_at(&mut self, timestamp: Instant, sockets: &SocketSet<'_>) -> Option<Instant> {
        let is_own = sockets.host.as_ref().is_none_or(|host| self.host.is(host));
        assert!(is_own, "the sockets are another interface's");
        self.host.poll_at(timestamp).into_iter().chain(sockets.poll_at()).min()
    }

    /// The time until then: none, if it has passed.
    ///
    /// # Panics
    /// If the sockets are another interface's.
    pub fn poll_delay(&mut self, timestamp: Instant, sockets: &SocketSet<'_>) -> Option<Duration> {
        self.poll_at(timestamp, sockets).map(|at| at.max(timestamp) - timestamp)
    }

    /// How many packets were given up, of all sockets, since a neighbour didn't answer. smoltcp has none such.
    pub fn given_up_count(&self) -> u64 {
        self.host.with(Host::given_up_count)
    }

    /// What it counted since it was made: frames, packets that were given up, and refused memory. smoltcp has none
    /// such.
    pub fn counters(&self) -> Counters {
        self.host.with(Host::counters)
    }

    /// How many frames its guard dropped, by the reason, and how many answers it held back.
    pub fn guard_drops(&self) -> Drops {
        self.host.with(Host::guard_drops)
    }

    /// Who sent the last frame that its guard dropped as claiming an own address, if there was one.
    pub fn guard_conflict(&self) -> Option<Conflict> {
        self.host.with(Host::guard_conflict)
    }

    /// Pins a neighbour to a hardware address, in place of the one that it is pinned to. The guard drops ARP packets and
    /// neighbour messages of it that tell another one. The host learns the address from the next message that tells this
    /// one, and asks for it as for any other.
    ///
    /// # Errors
    /// [`Error::NotUnicast`] if one of the two isn't unicast, [`Error::TableFull`] if eight others are pinned.
    pub fn guard_pin<T: Into<IpAddress>>(&mut self, addr: T, hardware_addr: EthernetAddress) -> Result<(), Error> {
        self.host.with(|host| host.guard_pin(addr.into(), hardware_addr))
    }

    /// Pins a neighbour no more.
    ///
    /// # Errors
    /// [`Error::NotThere`] if it isn't pinned.
    pub fn guard_unpin<T: Into<IpAddress>>(&mut self, addr: T) -> Result<(), Error> {
        self.host.with(|host| host.guard_unpin(addr.into()))
    }

    /// Who sent the last frame that its guard dropped for telling another hardware address of a pinned neighbour, if there
    /// was one.
    pub fn guard_pinned_conflict(&self) -> Option<Conflict> {
        self.host.with(Host::guard_pinned_conflict)
    }

    /// Its neighbours, by rising instants, those whose instant has passed too: a copy. None are there on a medium
    /// without hardware addresses. smoltcp has none such.
    pub fn neighbors(&self) -> Vec<Neighbor> {
        self.host.with(|host| (0..).map_while(|index| host.neighbor_at(index)).collect())
    }

    /// Lets the clients of DHCP do what is due.
    #[inline]
    fn step(&mut self, timestamp: Instant, sockets: &mut SocketSet<'_>) {
        self.is_news |= sockets.step(timestamp);
    }
}
