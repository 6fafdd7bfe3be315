//! Sets of sockets.
use super::Interface;
use crate::host::Error;
use crate::shared::Shared;
use crate::socket::{AnySocket, Socket};
use crate::storage::ManagedSlice;
use crate::time::Instant;
use alloc::vec::Vec;
use core::fmt;

/// Names a socket of a set.
#[derive(Clone, Copy, Debug, Default, PartialEq, Eq, PartialOrd, Ord, Hash)]
pub struct SocketHandle(usize);

impl fmt::Display for SocketHandle {
    fn fmt(&self, f: &mut fmt::Formatter<'_>) -> fmt::Result {
        write!(f, "#{}", self.0)
    }
}

/// Why a socket isn't in a set, and the socket.
#[derive(Debug)]
pub struct AddError<'a> {
    /// [`Error::TableFull`], [`Error::NoMemory`], or [`Error::BadArgument`] of a raw socket for any version or protocol;
    /// [`Error::NotThere`] of a client of DHCP where there are no hardware addresses.
    pub error: Error,
    /// The socket.
    pub socket: Socket<'a>,
}

impl fmt::Display for AddError<'_> {
    fn fmt(&self, f: &mut fmt::Formatter<'_>) -> fmt::Result {
        self.error.fmt(f)
    }
}

impl core::error::Error for AddError<'_> {}

/// A place for one socket of a set.
#[derive(Debug, Default)]
pub struct SocketStorage<'a> {
    socket: Option<Socket<'a>>,
}

impl SocketStorage<'_> {
    /// A place without a socket.
    pub const EMPTY: Self = SocketStorage { socket: None };
}

/// Sockets of an interface.
///
/// They come to the interface with the first call that gets both: then those that are bound are opened, with what was sent
/// before. A set that is made by [`of`](SocketSet::of) is at its interface from the start.
///
/// ```
/// use fumitorygate::iface::{SocketSet, SocketStorage};
///
/// let mut storage: [SocketStorage; 2] = Default::default();
/// let fixed = SocketSet::new(&mut storage[..]);
/// let growing = SocketSet::new(vec![]);
/// assert_eq!(fixed.iter().count() + growing.iter().count(), 0);
/// ```
#[derive(Debug)]
pub struct SocketSet<'a> {
    /// The host of its interface, once it came to one.
    pub(super) host: Option<Shared>,
    sockets: ManagedSlice<'a, SocketStorage<'a>>,
}

impl<'a> SocketSet<'a> {
    /// A set of the sockets in the storage: a vector, which grows, or a slice, which doesn't.
    pub fn new<S: Into<ManagedSlice<'a, SocketStorage<'a>>>>(sockets: S) -> SocketSet<'a> {
        SocketSet { host: None, sockets: sockets.into() }
    }

    /// A set without sockets, which grows, of an interface: a socket is opened as soon as it is in it and bound, so that
    /// [`try_add`](SocketSet::try_add) and a socket's `bind` can say that it isn't. smoltcp has none such.
    pub fn of(interface: &Interface) -> SocketSet<'a> {
        SocketSet { host: Some(interface.host.clone()), sockets: Vec::new().into() }
    }

    /// Adds a socket, which is opened if it is bound, and returns the handle that names it.
    ///
    /// # Panics
    /// If the storage is a slice and each place of it has a socket, as smoltcp's. At an interface also if it is bound and
    /// [`Config::sockets`](super::Config::sockets) are open, or there is no memory for its queues.
    /// [`try_add`](SocketSet::try_add) returns it then.
    pub fn add<T: AnySocket<'a>>(&mut self, socket: T) -> SocketHandle {
        match self.try_add(socket) {
            Ok(handle) => handle,
            Err(refused) => panic!("adding a socket: {refused}"),
        }
    }

    /// Adds a socket, which is opened if it is bound, and returns the handle that names it.
    ///
    /// # Errors
    /// The socket, if there is no place for it, or it can't be opened.
    #[expect(clippy::result_large_err, reason = "the socket is returned")]
    pub fn try_add<T: AnySocket<'a>>(&mut self, socket: T) -> Result<SocketHandle, AddError<'a>> {
        let mut socket = socket.upcast();
        let Some(index) = self.place() else { return Err(AddError { error: Error::TableFull, socket }) };
        if let Some(Err(error)) = self.host.as_ref().map(|host| socket.attach(host)) {
            return Err(AddError { error, socket });
        }
        self.sockets[index].socket = Some(socket);
        Ok(SocketHandle(index))
    }

    /// A place without a socket, if there is one or the storage grows.
    fn place(&mut self) -> Option<usize> {
        let free = self.sockets.iter().position(|place| place.socket.is_none());
        match (free, &mut self.sockets) {
            (None, ManagedSlice::Borrowed(_)) => None,
            (None, ManagedSlice::Owned(places)) => {
                places.push(SocketStorage::EMPTY);
                Some(places.len() - 1)
            }
            (free, _) => free,
        }
    }

    /// Comes to the host of an interface, if it isn't there yet.
    ///
    /// # Panics
    /// If it is at another one, or a socket can't be opened.
    #[inline]
    pub(super) fn come_to(&mut self, host: &Shared) {
        match &self.host {
            Some(own) => assert!(own.is(host), "the sockets are another interface's"),
            None => self.open_at(host),
        }
    }

    fn open_at(&mut self, host: &Shared) {
        self.host = Some(host.clone());
        for (handle, socket) in self.iter_mut() {
            if let Err(error) = socket.attach(host) {
                panic!("opening socket {handle}: {error}");
            }
        }
    }

    /// A socket.
    ///
    /// # Panics
    /// If the handle names no socket of this kind, as smoltcp's.
    pub fn get<T: AnySocket<'a>>(&self, handle: SocketHandle) -> &T {
        let socket = self.sockets.get(handle.0).and_then(|place| place.socket.as_ref());
        T::downcast(socket.expect("handle does not refer to a valid socket"))
            .expect("handle refers to a socket of a wrong type")
    }

    /// A socket, to be changed.
    ///
    /// # Panics
    /// If the handle names no socket of this kind, as smoltcp's.
    pub fn get_mut<T: AnySocket<'a>>(&mut self, handle: SocketHandle) -> &mut T {
        let socket = self.sockets.get_mut(handle.0).and_then(|place| place.socket.as_mut());
        T::downcast_mut(socket.expect("handle does not refer to a valid socket"))
            .expect("handle refers to a socket of a wrong type")
    }

    /// Takes a socket out. It stays bound, and what waits in its queues is dropped.
    ///
    /// # Panics
    /// If the handle names none, as smoltcp's.
    pub fn remove(&mut self, handle: SocketHandle) -> Socket<'a> {
        let taken = self.sockets.get_mut(handle.0).and_then(|place| place.socket.take());
        let mut socket = taken.expect("handle does not refer to a valid socket");
        socket.detach();
        socket
    }

    /// Wakes the tasks that wait for what sockets have.
    #[inline]
    pub(super) fn wake(&mut self) {
        #[cfg(feature = "async")]
        self.iter_mut().for_each(|(_, socket)| socket.wake());
    }

    /// Queues the packets that wait in sockets, lets the clients of DHCP and DNS do what is due, and tells whether one has an
    /// event, or a result.
    #[inline]
    pub(super) fn step(&mut self, timestamp: Instant) -> bool {
        self.iter_mut().fold(false, |is_news, (_, socket)| socket.step(timestamp) | is_news)
    }

    /// When it is to be polled, if no frame comes: by its sockets; at once if they have yet to be opened.
    #[inline]
    pub(super) fn poll_at(&self) -> Option<Instant> {
        match self.host {
            Some(_) => self.iter().filter_map(|(_, socket)| socket.poll_at()).min(),
            None => self.iter().next().map(|_| Instant::ZERO),
        }
    }

    /// The sockets with their handles.
    pub fn iter(&self) -> impl Iterator<Item = (SocketHandle, &Socket<'a>)> {
        let places = self.sockets.iter().enumerate();
        places.filter_map(|(index, place)| Some((SocketHandle(index), place.socket.as_ref()?)))
    }

    /// The sockets with their handles, to be changed.
    pub fn iter_mut(&mut self) -> impl Iterator<Item = (SocketHandle, &mut Socket<'a>)> {
        let places = self.sockets.iter_mut().enumerate();
        places.filter_map(|(index, place)| Some((SocketHandle(index), place.socket.as_mut()?)))
    }
}
