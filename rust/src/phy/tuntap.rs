//! A TAP or TUN device of Linux, by the C library alone.
use super::{Device, DeviceCapabilities, Medium, RxToken, TxToken};
use crate::FRAME_ROOM;
use crate::time::{Duration, Instant};
use alloc::vec::Vec;
use core::ffi::{c_int, c_ulong};
use std::fs::{File, OpenOptions};
use std::io::{self, ErrorKind, Read, Write};
use std::os::fd::{AsRawFd, RawFd};
use std::os::unix::fs::OpenOptionsExt;

const O_NONBLOCK: i32 = 0o4000;
const TUNSETIFF: c_ulong = 0x4004_54ca;
const IFF_TUN: u16 = 0x0001;
const IFF_TAP: u16 = 0x0002;
const IFF_NO_PI: u16 = 0x1000;
const POLLIN: i16 = 1;

/// `struct ifreq`: a name and, here, flags.
#[repr(C)]
struct Request {
    name: [u8; 16],
    flags: u16,
    rest: [u8; 22],
}

/// `struct pollfd`.
#[repr(C)]
struct PollFd {
    fd: c_int,
    events: i16,
    revents: i16,
}

// SAFETY: these are the C library's, declared as Linux has them.
unsafe extern "C" {
    fn ioctl(fd: c_int, request: c_ulong, ...) -> c_int;
    fn poll(fds: *mut PollFd, count: c_ulong, timeout: c_int) -> c_int;
}

/// A TAP device (Ethernet) or TUN device (IP) of Linux, whose packets are of 1500 octets at most.
#[derive(Debug)]
pub struct TunTapInterface {
    file: File,
    medium: Medium,
    buffer: Vec<u8>,
}

impl TunTapInterface {
    /// Opens a device that exists, or that the caller may make.
    ///
    /// # Errors
    /// Those of the system; `InvalidInput` if the name is longer than 15 octets, or the medium another one.
    pub fn new(name: &str, medium: Medium) -> io::Result<TunTapInterface> {
        let kind = match medium {
            Medium::Ethernet => IFF_TAP,
            Medium::Ip => IFF_TUN,
            #[cfg(feature = "medium-ieee802154")]
            Medium::Ieee802154 => return Err(ErrorKind::InvalidInput.into()),
        };
        let mut request = Request { name: [0; 16], flags: kind | IFF_NO_PI, rest: [0; 22] };
        if name.len() > 15 {
            return Err(ErrorKind::InvalidInput.into());
        }
        request.name[..name.len()].copy_from_slice(name.as_bytes());
        let file = OpenOptions::new().read(true).write(true).custom_flags(O_NONBLOCK).open("/dev/net/tun")?;
        // SAFETY: TUNSETIFF takes a pointer to a `struct ifreq`, of 40 octets, which it may write.
        if unsafe { ioctl(file.as_raw_fd(), TUNSETIFF, &raw mut request) } < 0 {
            return Err(io::Error::last_os_error());
        }
        Ok(TunTapInterface { file, medium, buffer: alloc::vec![0; 65536] })
    }
}

impl AsRawFd for TunTapInterface {
    fn as_raw_fd(&self) -> RawFd {
        self.file.as_raw_fd()
    }
}

/// Sleeps until a frame comes or a signal, at most for a span of time, if one is given.
///
/// # Errors
/// Those of the system.
pub fn wait(fd: RawFd, duration: Option<Duration>) -> io::Result<()> {
    let timeout = duration.map_or(-1, |span| i32::try_from(span.total_micros().div_ceil(1_000)).unwrap_or(i32::MAX));
    let mut one = PollFd { fd, events: POLLIN, revents: 0 };
    // SAFETY: the pointer is to one `struct pollfd`, and one is what the call is told.
    if unsafe { poll(&raw mut one, 1, timeout) } < 0 {
        let error = io::Error::last_os_error();
        return if error.kind() == ErrorKind::Interrupted { Ok(()) } else { Err(error) };
    }
    Ok(())
}

/// A frame of a [`TunTapInterface`].
#[derive(Debug)]
pub struct TunTapRxToken<'a>(&'a [u8]);

impl RxToken for TunTapRxToken<'_> {
    fn consume<R, F: FnOnce(&[u8]) -> R>(self, f: F) -> R {
        f(self.0)
    }
}

/// Permission to send a frame by a [`TunTapInterface`].
#[derive(Debug)]
pub struct TunTapTxToken<'a>(&'a File);

impl TxToken for TunTapTxToken<'_> {
    fn consume<R, F: FnOnce(&mut [u8]) -> R>(self, len: usize, f: F) -> R {
        let mut frame = alloc::vec![0; len];
        let result = f(&mut frame);
        // What the device doesn't accept is lost, as a link may lose it.
        let mut file = self.0;
        let _ = file.write(&frame);
        result
    }
}

impl Device for TunTapInterface {
    type RxToken<'a> = TunTapRxToken<'a>;
    type TxToken<'a> = TunTapTxToken<'a>;

    fn receive(&mut self, _timestamp: Instant) -> Option<(TunTapRxToken<'_>, TunTapTxToken<'_>)> {
        let length = self.file.read(&mut self.buffer).ok()?;
        Some((TunTapRxToken(self.buffer.get(..length)?), TunTapTxToken(&self.file)))
    }

    fn transmit(&mut self, _timestamp: Instant) -> Option<TunTapTxToken<'_>> {
        Some(TunTapTxToken(&self.file))
    }

    fn capabilities(&self) -> DeviceCapabilities {
        let max_transmission_unit = match self.medium {
            Medium::Ethernet => FRAME_ROOM,
            _ => 1500,
        };
        DeviceCapabilities { medium: self.medium, max_transmission_unit, ..DeviceCapabilities::default() }
    }
}
