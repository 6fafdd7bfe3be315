//! A device whose frames a function of the program changes.
use super::{Device, DeviceCapabilities, RxToken, TxToken};
use crate::time::Instant;

/// What changes frames.
pub trait Fuzzer {
    /// Changes a frame.
    fn fuzz_packet(&self, packet_data: &mut [u8]);
}

/// A device over another one, whose frames are changed by two fuzzers: as they come, and as they were written.
#[derive(Debug)]
pub struct FuzzInjector<D: Device, FTx: Fuzzer, FRx: Fuzzer> {
    inner: D,
    fuzz_tx: FTx,
    fuzz_rx: FRx,
}

impl<D: Device, FTx: Fuzzer, FRx: Fuzzer> FuzzInjector<D, FTx, FRx> {
    /// A device over `inner`.
    pub fn new(inner: D, fuzz_tx: FTx, fuzz_rx: FRx) -> FuzzInjector<D, FTx, FRx> {
        FuzzInjector { inner, fuzz_tx, fuzz_rx }
    }

    /// The device below.
    pub fn into_inner(self) -> D {
        self.inner
    }
}

/// A frame of a [`FuzzInjector`], or permission to send one.
#[derive(Debug)]
pub struct FuzzToken<'a, T, F> {
    token: T,
    fuzzer: &'a F,
}

impl<T: RxToken, FRx: Fuzzer> RxToken for FuzzToken<'_, T, FRx> {
    fn consume<R, F: FnOnce(&[u8]) -> R>(self, f: F) -> R {
        self.token.consume(|buffer| {
            let mut changed = buffer.to_vec();
            self.fuzzer.fuzz_packet(&mut changed);
            f(&changed)
        })
    }
}

impl<T: TxToken, FTx: Fuzzer> TxToken for FuzzToken<'_, T, FTx> {
    fn consume<R, F: FnOnce(&mut [u8]) -> R>(self, len: usize, f: F) -> R {
        self.token.consume(len, |buffer| {
            let result = f(buffer);
            self.fuzzer.fuzz_packet(buffer);
            result
        })
    }
}

impl<D: Device, FTx: Fuzzer, FRx: Fuzzer> Device for FuzzInjector<D, FTx, FRx> {
    type RxToken<'a>
        = FuzzToken<'a, D::RxToken<'a>, FRx>
    where
        Self: 'a;
    type TxToken<'a>
        = FuzzToken<'a, D::TxToken<'a>, FTx>
    where
        Self: 'a;

    fn receive(&mut self, timestamp: Instant) -> Option<(Self::RxToken<'_>, Self::TxToken<'_>)> {
        let (rx, tx) = self.inner.receive(timestamp)?;
        Some((FuzzToken { token: rx, fuzzer: &self.fuzz_rx }, FuzzToken { token: tx, fuzzer: &self.fuzz_tx }))
    }

    fn transmit(&mut self, timestamp: Instant) -> Option<Self::TxToken<'_>> {
        Some(FuzzToken { token: self.inner.transmit(timestamp)?, fuzzer: &self.fuzz_tx })
    }

    fn capabilities(&self) -> DeviceCapabilities {
        self.inner.capabilities()
    }
}
