//! Lists in place: of own addresses and of routes.
pub use crate::config::{IFACE_MAX_ADDR_COUNT, IFACE_MAX_ROUTE_COUNT};
use crate::host::{Host, Route};
use crate::wire::{IpAddress, IpCidr, Ipv4Address};
use core::fmt;
use core::ops::{Deref, DerefMut};

/// A list of own addresses with their networks: a copy, which [`update_ip_addrs`](super::Interface::update_ip_addrs)
/// lends to be changed.
pub type Addresses = List<IpCidr, IFACE_MAX_ADDR_COUNT>;

/// A list of routes: a copy, which [`Routes::update`](super::Routes::update) lends to be changed.
pub type RouteList = List<Route, IFACE_MAX_ROUTE_COUNT>;

/// A list of as many items as there is room for, at most `N`. It derefs to a slice of them, and has the calls of
/// `heapless::Vec`, which smoltcp has in its place.
#[derive(Clone, Copy)]
pub struct List<T, const N: usize> {
    places: [T; N],
    len: usize,
    room: usize,
}

impl<T: Copy, const N: usize> List<T, N> {
    /// What `at` returns for the indices from 0 on, until it returns none, with room for so many, at most `N`. What stands
    /// beyond isn't read.
    pub(crate) fn read(room: usize, place: T, mut at: impl FnMut(u32) -> Option<T>) -> List<T, N> {
        let mut list = List { places: [place; N], len: 0, room: room.min(N) };
        for index in 0.. {
            match at(index) {
                Some(item) if list.push(item).is_ok() => {}
                _ => break,
            }
        }
        list
    }

    /// Adds an item behind the others, or returns it if there are as many as there may be.
    ///
    /// # Errors
    /// The item.
    pub fn push(&mut self, item: T) -> Result<(), T> {
        *self.places[..self.room].get_mut(self.len).ok_or(item)? = item;
        self.len += 1;
        Ok(())
    }

    /// Takes out the last item.
    pub fn pop(&mut self) -> Option<T> {
        let last = *self.last()?;
        self.len -= 1;
        Some(last)
    }

    /// Takes out all items.
    pub fn clear(&mut self) {
        self.len = 0;
    }

    /// Takes out the item at an index.
    ///
    /// # Panics
    /// If there is none.
    pub fn remove(&mut self, index: usize) -> T {
        let taken = self[index];
        self.places.copy_within(index + 1.., index);
        self.len -= 1;
        taken
    }

    /// Puts an item before the one at an index, or behind the last one, or returns it if there are as many as there may
    /// be.
    ///
    /// # Errors
    /// The item.
    ///
    /// # Panics
    /// If the index is more than the number of items.
    pub fn insert(&mut self, index: usize, item: T) -> Result<(), T> {
        self.push(item)?;
        self[index..].rotate_right(1);
        Ok(())
    }

    /// Takes out the item at an index, and puts the last one there.
    ///
    /// # Panics
    /// If there is none.
    pub fn swap_remove(&mut self, index: usize) -> T {
        let taken = self[index];
        self.places[index] = self.places[self.len - 1];
        self.len -= 1;
        taken
    }

    /// Takes out all items but the first ones, so many.
    pub fn truncate(&mut self, len: usize) {
        self.len = self.len.min(len);
    }

    /// Adds items behind the others, all of them or none.
    ///
    /// # Errors
    /// Nothing, if there isn't room for all.
    #[expect(clippy::result_unit_err, reason = "as that of heapless::Vec")]
    pub fn extend_from_slice(&mut self, items: &[T]) -> Result<(), ()> {
        let end = self.len + items.len();
        self.places[..self.room].get_mut(self.len..end).ok_or(())?.copy_from_slice(items);
        self.len = end;
        Ok(())
    }

    /// Takes out those items that `f` denies.
    pub fn retain(&mut self, mut f: impl FnMut(&T) -> bool) {
        self.retain_mut(|item| f(item));
    }

    /// Takes out those items that `f` denies, which may change them.
    pub fn retain_mut(&mut self, mut f: impl FnMut(&mut T) -> bool) {
        let mut old = *self;
        self.clear();
        for item in old.iter_mut() {
            if f(item) {
                self.places[self.len] = *item;
                self.len += 1;
            }
        }
    }

    /// How many items there may be.
    pub fn capacity(&self) -> usize {
        self.room
    }

    /// Whether there are as many.
    pub fn is_full(&self) -> bool {
        self.len == self.room
    }

    /// The items.
    pub fn as_slice(&self) -> &[T] {
        self
    }
}

impl<T: Copy, const N: usize> Extend<T> for List<T, N> {
    /// Adds items behind the others.
    ///
    /// # Panics
    /// If there isn't room for all, as that of `heapless::Vec`.
    fn extend<I: IntoIterator<Item = T>>(&mut self, items: I) {
        for item in items {
            assert!(self.push(item).is_ok(), "the list is full");
        }
    }
}

impl<T, const N: usize> IntoIterator for List<T, N> {
    type Item = T;
    type IntoIter = core::iter::Take<core::array::IntoIter<T, N>>;

    fn into_iter(self) -> Self::IntoIter {
        self.places.into_iter().take(self.len)
    }
}

impl<'l, T, const N: usize> IntoIterator for &'l List<T, N> {
    type Item = &'l T;
    type IntoIter = core::slice::Iter<'l, T>;

    fn into_iter(self) -> core::slice::Iter<'l, T> {
        self.iter()
    }
}

impl<'l, T, const N: usize> IntoIterator for &'l mut List<T, N> {
    type Item = &'l mut T;
    type IntoIter = core::slice::IterMut<'l, T>;

    fn into_iter(self) -> core::slice::IterMut<'l, T> {
        self.iter_mut()
    }
}

impl Addresses {
    /// The own addresses of a host, with room for so many.
    pub(super) fn of(host: &mut Host, room: usize) -> Addresses {
        List::read(room, IpCidr::new(IpAddress::v4(0, 0, 0, 0), 0), |index| host.address_at(index))
    }
}

impl RouteList {
    /// The routes of a host, with room for so many.
    pub(super) fn of(host: &mut Host, room: usize) -> RouteList {
        List::read(room, Route::new_ipv4_gateway(Ipv4Address::UNSPECIFIED), |index| host.route_at(index))
    }

    /// The first default route of IPv4.
    pub fn get_default_ipv4_route(&self) -> Option<Route> {
        self.iter().copied().find(Route::is_ipv4_gateway)
    }

    /// The first default route of IPv6.
    pub fn get_default_ipv6_route(&self) -> Option<Route> {
        self.iter().copied().find(Route::is_ipv6_gateway)
    }
}

impl<T, const N: usize> Deref for List<T, N> {
    type Target = [T];

    fn deref(&self) -> &[T] {
        &self.places[..self.len]
    }
}

impl<T, const N: usize> DerefMut for List<T, N> {
    fn deref_mut(&mut self) -> &mut [T] {
        &mut self.places[..self.len]
    }
}

impl<T: fmt::Debug, const N: usize> fmt::Debug for List<T, N> {
    fn fmt(&self, f: &mut fmt::Formatter<'_>) -> fmt::Result {
        (**self).fmt(f)
    }
}

impl<T: PartialEq, const N: usize> PartialEq for List<T, N> {
    fn eq(&self, other: &List<T, N>) -> bool {
        **self == **other
    }
}

impl<T: Eq, const N: usize> Eq for List<T, N> {}
