//! A slice that is lent, or a vector.
use alloc::vec::Vec;
use core::ops::{Deref, DerefMut};

/// Items of a program's: a slice that it lends, which has as many for good, or a vector, which may grow. It derefs to a
/// slice of them. In smoltcp it is a crate's of its own, `managed`.
#[derive(Debug)]
pub enum ManagedSlice<'a, T> {
    /// A slice that is lent.
    Borrowed(&'a mut [T]),
    /// A vector.
    Owned(Vec<T>),
}

impl<'a, T> From<&'a mut [T]> for ManagedSlice<'a, T> {
    fn from(items: &'a mut [T]) -> ManagedSlice<'a, T> {
        ManagedSlice::Borrowed(items)
    }
}

impl<'a, T, const N: usize> From<&'a mut [T; N]> for ManagedSlice<'a, T> {
    fn from(items: &'a mut [T; N]) -> ManagedSlice<'a, T> {
        ManagedSlice::Borrowed(items)
    }
}

impl<T> From<Vec<T>> for ManagedSlice<'_, T> {
    fn from(items: Vec<T>) -> Self {
        ManagedSlice::Owned(items)
    }
}

impl<T> Deref for ManagedSlice<'_, T> {
    type Target = [T];

    fn deref(&self) -> &[T] {
        match self {
            ManagedSlice::Borrowed(items) => items,
            ManagedSlice::Owned(items) => items,
        }
    }
}

impl<T> DerefMut for ManagedSlice<'_, T> {
    fn deref_mut(&mut self) -> &mut [T] {
        match self {
            ManagedSlice::Borrowed(items) => items,
            ManagedSlice::Owned(items) => items,
        }
    }
}
