//! Interfaces, their addresses, groups and routes, and sets of sockets.
//!
//! The library has interface and sockets in one host. So a [`SocketSet`] belongs to one interface, a socket's queues are the
//! library's, and [`Config::sockets`] says how many may be open. Interface and set may be in different threads: a call
//! waits for that of the other.
mod context;
mod interface;
mod list;
mod route;
mod socket_set;

pub use crate::guard::{Conflict, Drops, Guard, Rate};
pub use crate::host::{Counters, Neighbor, Route};
pub use crate::shared::TcpConfig;
pub use context::Context;
pub use interface::{Config, Interface, MulticastError, PollIngressSingleResult, PollResult};
pub use list::{Addresses, IFACE_MAX_ADDR_COUNT, IFACE_MAX_ROUTE_COUNT, List, RouteList};
pub use route::{RouteTableFull, Routes};
pub use socket_set::{AddError, SocketHandle, SocketSet, SocketStorage};
