//! An interface of Linux by a packet socket, by the C library alone.
use super::{Device, DeviceCapabilities, Medium, RxToken, TxToken};
use crate::time::Instant;
use alloc::vec::Vec;
use core::ffi::{c_int, c_ulong};
use std::fs::File;
use std::io::{self, ErrorKind, Read, Write};
use std::os::fd::{AsRawFd, FromRawFd, OwnedFd, RawFd};

const AF_PACKET: u16 = 17;
const SOCK_RAW: c_int = 3;
const SOCK_NONBLOCK: c_int = 0o4000;
const SOCK_CLOEXEC: c_int = 0o2_000_000;
const ETH_P_ALL: u16 = 3;
const SIOCGIFMTU: c_ulong = 0x8921;
const SIOCGIFINDEX: c_ulong = 0x8933;
const ETHERNET_HEADER_LEN: usize = crate::wire::ETHERNET_HEADER_LEN;

/// `struct ifreq`: a name and, here, a number.
#[repr(C)]
struct Request {
    name: [u8; 16],
    number: c_int,
    rest: [u8; 20],
}

/// `struct sockaddr_ll`.
#[repr(C)]
struct LinkAddress {
    family: u16,
    protocol: u16,
    index: c_int,
    kind: u16,
    packet_type: u8,
    length: u8,
    address: [u8; 8],
}

// SAFETY: these are the C library's, declared as Linux has them.
unsafe extern "C" {
    fn socket(domain: c_int, kind: c_int, protocol: c_int) -> c_int;
    fn bind(fd: c_int, address: *const LinkAddress, length: u32) -> c_int;
    fn ioctl(fd: c_int, request: c_ulong, ...) -> c_int;
}

/// An interface of Linux, whose frames come to this device and to Linux as well. It needs the capability `CAP_NET_RAW`.
#[derive(Debug)]
pub struct RawSocket {
    file: File,
    medium: Medium,
    mtu: usize,
    buffer: Vec<u8>,
}

fn done(status: c_int) -> io::Result<c_int> {
    if status < 0 { Err(io::Error::last_os_error()) } else { Ok(status) }
}

impl RawSocket {
    /// Opens an interface that exists, as `eth0`, and whose frames are of this medium.
    ///
    /// # Errors
    /// Those of the system; `InvalidInput` if the name is longer than 15 octets.
    pub fn new(name: &str, medium: Medium) -> io::Result<RawSocket> {
        let protocol = ETH_P_ALL.to_be();
        let kind = SOCK_RAW | SOCK_NONBLOCK | SOCK_CLOEXEC;
        // SAFETY: it takes three numbers.
        let fd = done(unsafe { socket(AF_PACKET.into(), kind, protocol.into()) })?;
        // SAFETY: the call above has just opened it, so it is nobody else's.
        let fd = unsafe { OwnedFd::from_raw_fd(fd) };
        let index = asked(&fd, SIOCGIFINDEX, name)?;
        let octets = usize::try_from(asked(&fd, SIOCGIFMTU, name)?).map_err(|_| ErrorKind::InvalidData)?;
        let family = AF_PACKET;
        let own = LinkAddress { family, protocol, index, kind: 0, packet_type: 0, length: 0, address: [0; 8] };
        // SAFETY: the pointer is to a `struct sockaddr_ll`, whose length is what the call is told.
        done(unsafe { bind(fd.as_raw_fd(), &raw const own, size_of::<LinkAddress>() as u32) })?;
        let mtu = match medium {
            Medium::Ethernet => octets + ETHERNET_HEADER_LEN,
            _ => octets,
        };
        Ok(RawSocket { file: fd.into(), medium, mtu, buffer: alloc::vec![0; 65536] })
    }
}

/// What the system tells of an interface: a number.
fn asked(fd: &OwnedFd, what: c_ulong, name: &str) -> io::Result<c_int> {
    let mut request = Request { name: [0; 16], number: 0, rest: [0; 20] };
    if name.len() > 15 {
        return Err(ErrorKind::InvalidInput.into());
    }
    request.name[..name.len()].copy_from_slice(name.as_bytes());
    // SAFETY: both requests take a pointer to a `struct ifreq`, of 40 octets, which they may write.
    done(unsafe { ioctl(fd.as_raw_fd(), what, &raw mut request) })?;
    Ok(request.number)
}

impl AsRawFd for RawSocket {
    fn as_raw_fd(&self) -> RawFd {
        self.file.as_raw_fd()
    }
}

/// A frame of a [`RawSocket`].
#[derive(Debug)]
pub struct RawRxToken<'a>(&'a [u8]);

impl RxToken for RawRxToken<'_> {
    fn consume<R, F: FnOnce(&[u8]) -> R>(self, f: F) -> R {
        f(self.0)
    }
}

/// Permission to send a frame by a [`RawSocket`].
#[derive(Debug)]
pub struct RawTxToken<'a>(&'a File);

impl TxToken for RawTxToken<'_> {
    fn consume<R, F: FnOnce(&mut [u8]) -> R>(self, len: usize, f: F) -> R {
        let mut frame = alloc::vec![0; len];
        let result = f(&mut frame);
        // What the interface doesn't accept is lost, as a link may lose it.
        let mut file = self.0;
        let _ = file.write(&frame);
        result
    }
}

impl Device for RawSocket {
    type RxToken<'a> = RawRxToken<'a>;
    type TxToken<'a> = RawTxToken<'a>;

    fn receive(&mut self, _timestamp: Instant) -> Option<(RawRxToken<'_>, RawTxToken<'_>)> {
        let length = self.file.read(&mut self.buffer).ok()?;
        Some((RawRxToken(self.buffer.get(..length)?), RawTxToken(&self.file)))
    }

    fn transmit(&mut self, _timestamp: Instant) -> Option<RawTxToken<'_>> {
        Some(RawTxToken(&self.file))
    }

    fn capabilities(&self) -> DeviceCapabilities {
        DeviceCapabilities { medium: self.medium, max_transmission_unit: self.mtu, ..DeviceCapabilities::default() }
    }
}
