//! What the library has room for, by smoltcp's names. There these are set when it is compiled; here what may be chosen at
//! all is chosen by [`iface::Config`](crate::iface::Config) when an interface is made, and these are the most, or what
//! there is unless it says otherwise.

/// How many pieces with gaps between them a packet in fragments may have at a time.
pub const ASSEMBLER_MAX_SEGMENT_COUNT: usize = 4;

/// The octets of the longest name that is asked for.
pub const DNS_MAX_NAME_SIZE: usize = 255;

/// How many addresses a result has at most.
pub const DNS_MAX_RESULT_COUNT: usize = crate::sys::IFACE_DNS_ADDRESSES;

/// How many servers a client asks at most.
pub const DNS_MAX_SERVER_COUNT: usize = crate::sys::IFACE_DNS_SERVERS;

/// The octets of the longest packet of IPv4 that is sent in fragments.
pub const FRAGMENTATION_BUFFER_SIZE: usize = 4096;

/// How many own addresses there may be at most: [`Config::addresses`](crate::iface::Config::addresses) sets it, and is 8
/// unless it is set.
pub const IFACE_MAX_ADDR_COUNT: usize = 16;

/// How many groups there may be at most: [`Config::groups`](crate::iface::Config::groups) sets it.
pub const IFACE_MAX_MULTICAST_GROUP_COUNT: usize = 16;

/// How many prefixes of routers there may be at most: [`Config::prefixes`](crate::iface::Config::prefixes) sets it, and is
/// 4 unless it is set.
pub const IFACE_MAX_PREFIX_COUNT: usize = 8;

/// How many routes there may be at most: [`Config::routes`](crate::iface::Config::routes) sets it, and is 8 unless it is
/// set.
pub const IFACE_MAX_ROUTE_COUNT: usize = 32;

/// How many neighbours there may be, unless [`Config::neighbors`](crate::iface::Config::neighbors) says otherwise.
pub const IFACE_NEIGHBOR_CACHE_COUNT: usize = 128;

/// How many hop-by-hop options of a packet of IPv6 are read.
pub const IPV6_HBH_MAX_OPTIONS: usize = 4;

/// How many packets in fragments are put together at a time, unless
/// [`Config::fragmented`](crate::iface::Config::fragmented) says otherwise.
pub const REASSEMBLY_BUFFER_COUNT: usize = 16;

/// The octets of the longest packet that is put together.
pub const REASSEMBLY_BUFFER_SIZE: usize = 4096;
