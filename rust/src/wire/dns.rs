//! What is asked of a name. Messages of DNS have no form of this crate: the library reads and writes them.

/// What is asked of a name: its addresses of one family.
#[derive(Clone, Copy, Debug, PartialEq, Eq)]
#[non_exhaustive]
pub enum DnsQueryType {
    /// Its IPv4 addresses (RFC 1035, 3.2.2).
    A,
    /// Its IPv6 addresses (RFC 3596, 2.1).
    Aaaa,
}
