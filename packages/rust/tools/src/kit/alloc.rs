//! Vectors whose growth reports a failed allocation.

use std::io::{self, Write};
use std::marker::PhantomData;
use std::ops::Deref;
use std::slice;

/// The error of a failed allocation.
#[derive(Debug)]
pub struct AllocError;

/// The error of a failed allocation for a value.
#[derive(Debug)]
pub struct AllocFailed<T>(PhantomData<T>);

impl<T> AllocFailed<T> {
    /// Returns the error.
    #[allow(clippy::new_without_default)]
    pub fn new() -> Self {
        AllocFailed(PhantomData)
    }
}

/// An allocator.
pub trait Allocator {}

/// The allocator of the process.
#[derive(Clone, Copy)]
pub struct Global;

impl Allocator for Global {}

/// A vector with an allocator.
pub struct Vec<T, A = Global> {
    items: std::vec::Vec<T>,
    _alloc: A,
}

impl<T, A> Vec<T, A> {
    /// Returns an empty vector.
    pub fn new(alloc: A) -> Self {
        Vec {
            items: std::vec::Vec::new(),
            _alloc: alloc,
        }
    }

    /// Makes room for exactly this many more items.
    pub fn reserve_exact(&mut self, count: usize) -> Result<(), AllocError> {
        self.items.try_reserve_exact(count).map_err(|_| AllocError)
    }

    /// Adds an item.
    pub fn push(&mut self, item: T) -> Result<(), AllocError> {
        self.items.try_reserve(1).map_err(|_| AllocError)?;
        self.items.push(item);
        Ok(())
    }

    /// Returns the items.
    pub fn as_slice(&self) -> &[T] {
        &self.items
    }

    /// Removes all items and keeps their room.
    pub fn clear(&mut self) {
        self.items.clear();
    }
}

impl<T: Copy, A> Vec<T, A> {
    /// Adds items.
    pub fn extend_from_slice(&mut self, items: &[T]) -> Result<(), AllocError> {
        self.items
            .try_reserve(items.len())
            .map_err(|_| AllocError)?;
        self.items.extend_from_slice(items);
        Ok(())
    }
}

impl<A> Write for Vec<u8, A> {
    fn write(&mut self, buf: &[u8]) -> io::Result<usize> {
        self.extend_from_slice(buf)?;
        Ok(buf.len())
    }

    fn flush(&mut self) -> io::Result<()> {
        Ok(())
    }
}

impl<T, A> Deref for Vec<T, A> {
    type Target = [T];

    fn deref(&self) -> &[T] {
        &self.items
    }
}

impl<'a, T, A> IntoIterator for &'a Vec<T, A> {
    type Item = &'a T;
    type IntoIter = slice::Iter<'a, T>;

    fn into_iter(self) -> slice::Iter<'a, T> {
        self.items.iter()
    }
}
