//! Routes.
use super::RouteList;
use crate::host::Route;
use crate::shared::Shared;
use crate::wire::{IpAddress, IpCidr, Ipv4Address, Ipv6Address};
use core::fmt;

/// There is no room for another route.
#[derive(Clone, Copy, Debug, PartialEq, Eq)]
pub struct RouteTableFull;

impl fmt::Display for RouteTableFull {
    fn fmt(&self, f: &mut fmt::Formatter<'_>) -> fmt::Result {
        f.write_str("Route table full")
    }
}

impl core::error::Error for RouteTableFull {}

/// The routes of an interface, to be changed.
#[derive(Debug)]
pub struct Routes {
    pub(super) host: Shared,
    pub(super) room: usize,
}

impl Routes {
    /// Changes the routes by `f`, which gets those from routers too. Of equal prefixes the last one wins.
    ///
    /// ```
    /// use fumitorygate::{iface::*, phy::*, time::Instant, wire::*};
    ///
    /// let mut device = Loopback::new(Medium::Ip);
    /// let mut iface = Interface::new(Config::new(HardwareAddress::Ip), &mut device, Instant::ZERO);
    /// let route = Route {
    ///     cidr: "10.0.0.0/8".parse().unwrap(),
    ///     via_router: IpAddress::v4(192, 168, 69, 100),
    ///     preferred_until: None,
    ///     expires_at: Some(Instant::from_secs(60)),
    /// };
    /// iface.routes_mut().update(|routes| routes.push(route).unwrap());
    /// iface.routes_mut().add_default_ipv4_route(Ipv4Address::new(192, 168, 69, 1)).unwrap();
    /// assert_eq!(iface.routes()[0], route);
    /// assert!(iface.routes()[1].is_ipv4_gateway());
    /// ```
    pub fn update<F: FnOnce(&mut RouteList)>(&mut self, f: F) {
        let old = self.list();
        let mut new = old;
        f(&mut new);
        self.host.with(|host| {
            // The old ones are there, and there is room for as many as the list takes.
            for route in old.iter() {
                let _ = host.remove_route(route.cidr);
            }
            for route in new.iter() {
                let _ = host.add_route_until(route.cidr, route.via_router, route.expires_at);
            }
        });
    }

    /// Sets the default route of IPv4, behind all others, and returns the first one that was there, which it replaces.
    ///
    /// # Errors
    /// [`RouteTableFull`] if there is no room for another.
    pub fn add_default_ipv4_route(&mut self, gateway: Ipv4Address) -> Result<Option<Route>, RouteTableFull> {
        let old = self.get_default_ipv4_route();
        self.host.with(|host| host.set_default_route(gateway.into())).map_err(|_| RouteTableFull)?;
        Ok(old)
    }

    /// Sets the default route of IPv6, behind all others, and returns the first one that was there, which it replaces.
    ///
    /// # Errors
    /// [`RouteTableFull`] if there is no room for another.
    pub fn add_default_ipv6_route(&mut self, gateway: Ipv6Address) -> Result<Option<Route>, RouteTableFull> {
        let old = self.get_default_ipv6_route();
        self.host.with(|host| host.set_default_route(gateway.into())).map_err(|_| RouteTableFull)?;
        Ok(old)
    }

    /// The first default route of IPv4.
    pub fn get_default_ipv4_route(&self) -> Option<Route> {
        self.list().get_default_ipv4_route()
    }

    /// The first default route of IPv6.
    pub fn get_default_ipv6_route(&self) -> Option<Route> {
        self.list().get_default_ipv6_route()
    }

    /// Takes out the first default route of IPv4, and returns it.
    pub fn remove_default_ipv4_route(&mut self) -> Option<Route> {
        let old = self.get_default_ipv4_route()?;
        self.remove(old.cidr).then_some(old)
    }

    /// Takes out the first default route of IPv6, and returns it.
    pub fn remove_default_ipv6_route(&mut self) -> Option<Route> {
        let old = self.get_default_ipv6_route()?;
        self.remove(old.cidr).then_some(old)
    }

    /// Adds a route without an end to a network by a router. The longest prefix wins, of equal ones the last. smoltcp
    /// has [`update`](Routes::update) alone.
    ///
    /// # Errors
    /// [`RouteTableFull`].
    pub fn add(&mut self, cidr: IpCidr, via_router: IpAddress) -> Result<(), RouteTableFull> {
        self.host.with(|host| host.add_route(cidr, via_router)).map_err(|_| RouteTableFull)
    }

    /// Takes out the first route to a network, and tells whether there was one. smoltcp has
    /// [`update`](Routes::update) alone.
    pub fn remove(&mut self, cidr: IpCidr) -> bool {
        self.host.with(|host| host.remove_route(cidr)).is_ok()
    }

    /// The routes: a copy.
    pub(super) fn list(&self) -> RouteList {
        self.host.with(|host| RouteList::of(host, self.room))
    }
}
