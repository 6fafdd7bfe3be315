//! A device that loses and damages frames.
use super::{Device, DeviceCapabilities, RxToken, TxToken};
use crate::time::{Duration, Instant};
use alloc::vec::Vec;
use core::cell::RefCell;

/// A device over another one, which loses frames, damages one bit of them, drops those that are too long, and lets so
/// many through in an interval, in each direction. At first it does none of these. A rate holds from the first frame
/// on, and the next interval begins with the first frame after it.
///
/// A frame that comes and is lost ends the poll in which it came, as if none had come.
#[derive(Debug)]
pub struct FaultInjector<D: Device> {
    inner: D,
    state: RefCell<State>,
    config: Config,
}

#[derive(Clone, Copy, Debug)]
struct Config {
    corrupt_pct: u8,
    drop_pct: u8,
    max_size: usize,
    max_tx_rate: u64,
    max_rx_rate: u64,
    interval: Duration,
}

#[derive(Debug)]
struct State {
    word: u32,
    refilled_at: Option<Instant>,
    tx_bucket: u64,
    rx_bucket: u64,
}

impl State {
    /// A number below 2^32, by Marsaglia's xorshift.
    fn next(&mut self) -> u32 {
        self.word ^= self.word << 13;
        self.word ^= self.word >> 17;
        self.word ^= self.word << 5;
        self.word
    }

    fn happens(&mut self, percent: u8) -> bool {
        self.next() % 100 < u32::from(percent)
    }

    /// Turns one bit over.
    fn corrupt(&mut self, buffer: &mut [u8]) {
        if !buffer.is_empty() {
            let at = self.next() as usize % buffer.len();
            buffer[at] ^= 1 << (self.next() % 8);
        }
    }

    fn refill(&mut self, config: &Config, timestamp: Instant) {
        if self.refilled_at.is_none_or(|at| timestamp - at > config.interval) {
            (self.tx_bucket, self.rx_bucket) = (config.max_tx_rate, config.max_rx_rate);
            self.refilled_at = Some(timestamp);
        }
    }

    fn may_transmit(&mut self, config: &Config, timestamp: Instant) -> bool {
        self.refill(config, timestamp);
        config.max_tx_rate == 0 || take(&mut self.tx_bucket)
    }

    fn may_receive(&mut self, config: &Config, timestamp: Instant) -> bool {
        self.refill(config, timestamp);
        config.max_rx_rate == 0 || take(&mut self.rx_bucket)
    }
}

fn take(bucket: &mut u64) -> bool {
    let rest = bucket.checked_sub(1);
    *bucket = rest.unwrap_or(0);
    rest.is_some()
}

impl<D: Device> FaultInjector<D> {
    /// A device over `inner`. The seed decides which frames are lost and damaged.
    pub fn new(inner: D, seed: u32) -> FaultInjector<D> {
        let state = State { word: seed.max(1), refilled_at: None, tx_bucket: 0, rx_bucket: 0 };
        let config = Config {
            corrupt_pct: 0,
            drop_pct: 0,
            max_size: 0,
            max_tx_rate: 0,
            max_rx_rate: 0,
            interval: Duration::ZERO,
        };
        FaultInjector { inner, state: RefCell::new(state), config }
    }

    /// The device below.
    pub fn into_inner(self) -> D {
        self.inner
    }

    /// How many frames of a hundred are damaged.
    pub fn corrupt_chance(&self) -> u8 {
        self.config.corrupt_pct
    }

    /// How many frames of a hundred are lost.
    pub fn drop_chance(&self) -> u8 {
        self.config.drop_pct
    }

    /// The octets of the longest frame that passes: 0 if all do.
    pub fn max_packet_size(&self) -> usize {
        self.config.max_size
    }

    /// How many frames are sent in an interval: 0 if all are.
    pub fn max_tx_rate(&self) -> u64 {
        self.config.max_tx_rate
    }

    /// How many frames come in an interval: 0 if all do.
    pub fn max_rx_rate(&self) -> u64 {
        self.config.max_rx_rate
    }

    /// The interval.
    pub fn refill_interval(&self) -> Duration {
        self.config.interval
    }

    /// Sets how many frames of a hundred are damaged.
    ///
    /// # Panics
    /// If that is more than 100.
    pub fn set_corrupt_chance(&mut self, pct: u8) {
        assert!(pct <= 100, "percentage out of range");
        self.config.corrupt_pct = pct;
    }

    /// Sets how many frames of a hundred are lost.
    ///
    /// # Panics
    /// If that is more than 100.
    pub fn set_drop_chance(&mut self, pct: u8) {
        assert!(pct <= 100, "percentage out of range");
        self.config.drop_pct = pct;
    }

    /// Sets the octets of the longest frame that passes: 0 for all.
    pub fn set_max_packet_size(&mut self, size: usize) {
        self.config.max_size = size;
    }

    /// Sets how many frames are sent in an interval: 0 for all.
    pub fn set_max_tx_rate(&mut self, rate: u64) {
        self.config.max_tx_rate = rate;
    }

    /// Sets how many frames come in an interval: 0 for all.
    pub fn set_max_rx_rate(&mut self, rate: u64) {
        self.config.max_rx_rate = rate;
    }

    /// Sets the interval.
    pub fn set_bucket_interval(&mut self, interval: Duration) {
        self.state.get_mut().refilled_at = None;
        self.config.interval = interval;
    }
}

impl Config {
    fn is_too_long(&self, len: usize) -> bool {
        self.max_size > 0 && len > self.max_size
    }
}

/// A frame that came through a [`FaultInjector`].
#[derive(Debug)]
pub struct FaultRxToken(Vec<u8>);

impl RxToken for FaultRxToken {
    fn consume<R, F: FnOnce(&[u8]) -> R>(self, f: F) -> R {
        f(&self.0)
    }
}

/// Permission to send a frame through a [`FaultInjector`].
#[derive(Debug)]
pub struct FaultTxToken<'a, T> {
    token: T,
    state: &'a RefCell<State>,
    config: Config,
    timestamp: Instant,
}

impl<T: TxToken> TxToken for FaultTxToken<'_, T> {
    fn consume<R, F: FnOnce(&mut [u8]) -> R>(self, len: usize, f: F) -> R {
        if self.loses(len) {
            return f(&mut alloc::vec![0; len]);
        }
        self.token.consume(len, |buffer| {
            let result = f(buffer);
            let mut state = self.state.borrow_mut();
            if state.happens(self.config.corrupt_pct) {
                state.corrupt(buffer);
            }
            result
        })
    }
}

impl<T> FaultTxToken<'_, T> {
    fn loses(&self, len: usize) -> bool {
        let mut state = self.state.borrow_mut();
        state.happens(self.config.drop_pct)
            || self.config.is_too_long(len)
            || !state.may_transmit(&self.config, self.timestamp)
    }
}

impl<D: Device> Device for FaultInjector<D> {
    type RxToken<'a>
        = FaultRxToken
    where
        Self: 'a;
    type TxToken<'a>
        = FaultTxToken<'a, D::TxToken<'a>>
    where
        Self: 'a;

    fn receive(&mut self, timestamp: Instant) -> Option<(Self::RxToken<'_>, Self::TxToken<'_>)> {
        let (state, config) = (&self.state, self.config);
        let (rx, token) = self.inner.receive(timestamp)?;
        let mut frame = rx.consume(|buffer| {
            let mut state = state.borrow_mut();
            let is_lost = state.happens(config.drop_pct)
                || config.is_too_long(buffer.len())
                || !state.may_receive(&config, timestamp);
            (!is_lost).then(|| buffer.to_vec())
        })?;
        if state.borrow_mut().happens(config.corrupt_pct) {
            state.borrow_mut().corrupt(&mut frame);
        }
        Some((FaultRxToken(frame), FaultTxToken { token, state, config, timestamp }))
    }

    fn transmit(&mut self, timestamp: Instant) -> Option<Self::TxToken<'_>> {
        let (state, config) = (&self.state, self.config);
        let token = self.inner.transmit(timestamp)?;
        Some(FaultTxToken { token, state, config, timestamp })
    }

    fn capabilities(&self) -> DeviceCapabilities {
        self.inner.capabilities()
    }
}
