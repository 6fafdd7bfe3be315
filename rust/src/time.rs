//! Instants and spans of time, in microseconds.
use core::fmt;
use core::ops::{Add, AddAssign, Div, DivAssign, Mul, MulAssign, Shl, ShlAssign, Shr, ShrAssign, Sub, SubAssign};

/// An instant from 0 to 2^62 microseconds since any origin: those that the library takes.
///
/// What would lie outside is the nearest one that doesn't.
#[derive(Clone, Copy, Debug, Default, PartialEq, Eq, PartialOrd, Ord, Hash)]
pub struct Instant(i64);

impl Instant {
    /// The origin.
    pub const ZERO: Instant = Instant(0);
    /// The last instant.
    pub const LAST: Instant = Instant(crate::sys::IFACE_LAST_MOMENT);

    /// So many microseconds after the origin, in a constant too.
    pub const fn from_micros_const(micros: i64) -> Instant {
        if micros < 0 {
            Instant::ZERO
        } else if micros > Instant::LAST.0 {
            Instant::LAST
        } else {
            Instant(micros)
        }
    }

    /// So many milliseconds after the origin, in a constant too.
    pub const fn from_millis_const(millis: i64) -> Instant {
        Instant::from_micros_const(millis.saturating_mul(1_000))
    }

    /// So many microseconds after the origin.
    pub fn from_micros<T: Into<i64>>(micros: T) -> Instant {
        Instant::from_micros_const(micros.into())
    }

    /// So many milliseconds after the origin.
    pub fn from_millis<T: Into<i64>>(millis: T) -> Instant {
        Instant::from_millis_const(millis.into())
    }

    /// So many seconds after the origin.
    pub fn from_secs<T: Into<i64>>(secs: T) -> Instant {
        Instant::from_micros_const(secs.into().saturating_mul(1_000_000))
    }

    /// The time since 1970: at the first call by the system's clock, and from then on by the one that never goes back.
    /// smoltcp's is always by the former, which may be set back.
    #[cfg(feature = "std")]
    pub fn now() -> Instant {
        use std::sync::OnceLock;
        use std::time::{Instant as Clock, SystemTime};
        static START: OnceLock<(Clock, Instant)> = OnceLock::new();
        let (clock, start) = START.get_or_init(|| (Clock::now(), SystemTime::now().into()));
        *start + clock.elapsed().into()
    }

    /// The microseconds since the origin.
    pub const fn total_micros(&self) -> i64 {
        self.0
    }

    /// The whole milliseconds since the origin.
    pub const fn total_millis(&self) -> i64 {
        self.0 / 1_000
    }

    /// The whole seconds since the origin.
    pub const fn secs(&self) -> i64 {
        self.0 / 1_000_000
    }

    /// The whole milliseconds behind the whole seconds.
    pub const fn millis(&self) -> i64 {
        self.0 / 1_000 % 1_000
    }

    /// The microseconds behind the whole seconds.
    pub const fn micros(&self) -> i64 {
        self.0 % 1_000_000
    }
}

#[cfg(feature = "std")]
impl From<std::time::Instant> for Instant {
    /// The time since an instant of the system's, as smoltcp's.
    fn from(start: std::time::Instant) -> Instant {
        Instant::ZERO + start.elapsed().into()
    }
}

#[cfg(feature = "std")]
impl From<std::time::SystemTime> for Instant {
    /// The time since 1970: none before.
    fn from(time: std::time::SystemTime) -> Instant {
        Instant::ZERO + time.duration_since(std::time::UNIX_EPOCH).unwrap_or_default().into()
    }
}

#[cfg(feature = "std")]
impl From<Instant> for std::time::SystemTime {
    /// So long after 1970.
    fn from(instant: Instant) -> std::time::SystemTime {
        std::time::UNIX_EPOCH + (instant - Instant::ZERO).into()
    }
}

impl fmt::Display for Instant {
    fn fmt(&self, f: &mut fmt::Formatter<'_>) -> fmt::Result {
        write!(f, "{}.{:03}s", self.secs(), self.millis())
    }
}

/// A span of time.
#[derive(Clone, Copy, Debug, Default, PartialEq, Eq, PartialOrd, Ord, Hash)]
pub struct Duration(u64);

impl Duration {
    /// No time.
    pub const ZERO: Duration = Duration(0);
    /// The longest span.
    pub const MAX: Duration = Duration(u64::MAX);

    /// So many microseconds.
    pub const fn from_micros(micros: u64) -> Duration {
        Duration(micros)
    }

    /// So many milliseconds.
    pub const fn from_millis(millis: u64) -> Duration {
        Duration(millis.saturating_mul(1_000))
    }

    /// So many seconds.
    pub const fn from_secs(secs: u64) -> Duration {
        Duration(secs.saturating_mul(1_000_000))
    }

    /// The microseconds of it.
    pub const fn total_micros(&self) -> u64 {
        self.0
    }

    /// The whole milliseconds of it.
    pub const fn total_millis(&self) -> u64 {
        self.0 / 1_000
    }

    /// The whole seconds of it.
    pub const fn secs(&self) -> u64 {
        self.0 / 1_000_000
    }

    /// The whole milliseconds behind the whole seconds.
    pub const fn millis(&self) -> u64 {
        self.0 / 1_000 % 1_000
    }

    /// The microseconds behind the whole seconds.
    pub const fn micros(&self) -> u64 {
        self.0 % 1_000_000
    }
}

impl fmt::Display for Duration {
    fn fmt(&self, f: &mut fmt::Formatter<'_>) -> fmt::Result {
        write!(f, "{}.{:03}s", self.secs(), self.millis())
    }
}

impl From<Duration> for core::time::Duration {
    fn from(span: Duration) -> core::time::Duration {
        core::time::Duration::from_micros(span.0)
    }
}

impl From<core::time::Duration> for Duration {
    fn from(span: core::time::Duration) -> Duration {
        Duration(u64::try_from(span.as_micros()).unwrap_or(u64::MAX))
    }
}

impl Add<Duration> for Instant {
    type Output = Instant;

    fn add(self, span: Duration) -> Instant {
        Instant::from_micros_const(self.0.saturating_add_unsigned(span.0))
    }
}

impl AddAssign<Duration> for Instant {
    fn add_assign(&mut self, span: Duration) {
        *self = *self + span;
    }
}

impl Sub<Duration> for Instant {
    type Output = Instant;

    fn sub(self, span: Duration) -> Instant {
        Instant::from_micros_const(self.0.saturating_sub_unsigned(span.0))
    }
}

impl SubAssign<Duration> for Instant {
    fn sub_assign(&mut self, span: Duration) {
        *self = *self - span;
    }
}

impl Sub<Instant> for Instant {
    type Output = Duration;

    /// The time between the two instants, whichever is later, as smoltcp's.
    fn sub(self, other: Instant) -> Duration {
        Duration(self.0.abs_diff(other.0))
    }
}

impl Add<Duration> for Duration {
    type Output = Duration;

    fn add(self, other: Duration) -> Duration {
        Duration(self.0.saturating_add(other.0))
    }
}

impl Sub<Duration> for Duration {
    type Output = Duration;

    /// The rest, if the other is taken off: none, if the other is longer.
    fn sub(self, other: Duration) -> Duration {
        Duration(self.0.saturating_sub(other.0))
    }
}

impl Mul<u32> for Duration {
    type Output = Duration;

    /// The span so many times, but at most the longest.
    fn mul(self, count: u32) -> Duration {
        Duration(self.0.saturating_mul(count.into()))
    }
}

impl Div<u32> for Duration {
    type Output = Duration;

    /// One of so many equal parts, in whole microseconds.
    ///
    /// # Panics
    /// If there are none.
    fn div(self, parts: u32) -> Duration {
        Duration(self.0 / u64::from(parts))
    }
}

impl Shl<u32> for Duration {
    type Output = Duration;

    /// The span doubled so often, but at most the longest.
    fn shl(self, count: u32) -> Duration {
        Duration(if self.0.leading_zeros() < count { u64::MAX } else { self.0.checked_shl(count).unwrap_or(0) })
    }
}

impl Shr<u32> for Duration {
    type Output = Duration;

    /// The span halved so often, in whole microseconds.
    fn shr(self, count: u32) -> Duration {
        Duration(self.0.checked_shr(count).unwrap_or(0))
    }
}

/// The operators that change a span.
macro_rules! assign {
    ($($form:ident $call:ident $other:ty: $operator:tt)*) => {
        $(impl $form<$other> for Duration {
            fn $call(&mut self, other: $other) {
                *self = *self $operator other;
            }
        })*
    };
}

assign! {
    AddAssign add_assign Duration: +
    SubAssign sub_assign Duration: -
    MulAssign mul_assign u32: *
    DivAssign div_assign u32: /
    ShlAssign shl_assign u32: <<
    ShrAssign shr_assign u32: >>
}
