//! Vectors and texts whose growth may be refused.

use std::fmt;
use std::ops::{Deref, DerefMut};

/// The allocator that the program has.
#[derive(Clone, Copy, Debug)]
pub struct Global;

/// A growth was refused. What was to grow is as it was.
#[derive(Clone, Copy, Debug, PartialEq, Eq)]
pub struct AllocError;

/// Items one after another. Each call that needs memory answers `AllocError` where it gets none.
pub struct Vec<T>(std::vec::Vec<T>);

impl<T> Vec<T> {
    /// No items. It takes no memory.
    pub fn new(_alloc: Global) -> Self {
        Vec(std::vec::Vec::new())
    }

    /// Makes room for so many items more.
    #[inline]
    pub fn reserve(&mut self, more: usize) -> Result<(), AllocError> {
        self.0.try_reserve(more).map_err(|_| AllocError)
    }

    /// The same, and for no more where that can be.
    #[inline]
    pub fn reserve_exact(&mut self, more: usize) -> Result<(), AllocError> {
        self.0.try_reserve_exact(more).map_err(|_| AllocError)
    }

    /// Appends an item.
    #[inline]
    pub fn push(&mut self, item: T) -> Result<(), AllocError> {
        self.reserve(1)?;
        self.0.push(item);
        Ok(())
    }

    /// Appends an item, for which there is room.
    #[inline]
    pub fn push_reserved(&mut self, item: T) {
        self.0.push(item);
    }

    /// How many items there is room for.
    pub fn capacity(&self) -> usize {
        self.0.capacity()
    }

    /// Drops the items from this place on.
    pub fn truncate(&mut self, len: usize) {
        self.0.truncate(len);
    }

    /// Drops all items, and keeps the room.
    pub fn clear(&mut self) {
        self.0.clear();
    }

    #[inline(always)]
    pub fn as_slice(&self) -> &[T] {
        &self.0
    }

    #[inline(always)]
    pub fn as_mut_slice(&mut self) -> &mut [T] {
        &mut self.0
    }

    #[cfg(feature = "program")]
    pub(crate) fn into_items(self) -> std::vec::IntoIter<T> {
        self.0.into_iter()
    }
}

impl<T: Copy> Vec<T> {
    /// So many times an item.
    pub fn filled(alloc: Global, item: T, n: usize) -> Result<Self, AllocError> {
        let mut items = Vec::new(alloc);
        items.resize(n, item)?;
        Ok(items)
    }

    /// A copy of these items.
    pub fn from_slice(alloc: Global, items: &[T]) -> Result<Self, AllocError> {
        let mut copy = Vec::new(alloc);
        copy.0
            .try_reserve_exact(items.len())
            .map_err(|_| AllocError)?;
        copy.0.extend_from_slice(items);
        Ok(copy)
    }

    /// A copy. Rust's `Clone` has no way to refuse one.
    pub fn clone(&self) -> Result<Self, AllocError> {
        Vec::from_slice(Global, self)
    }

    /// Drops items, or appends this one, until there are so many.
    pub fn resize(&mut self, len: usize, item: T) -> Result<(), AllocError> {
        self.reserve(len.saturating_sub(self.len()))?;
        self.0.resize(len, item);
        Ok(())
    }

    /// Appends a copy of these items.
    #[inline]
    pub fn extend_from_slice(&mut self, items: &[T]) -> Result<(), AllocError> {
        self.reserve(items.len())?;
        self.0.extend_from_slice(items);
        Ok(())
    }
}

impl<T> Deref for Vec<T> {
    type Target = [T];

    #[inline(always)]
    fn deref(&self) -> &[T] {
        &self.0
    }
}

impl<T> DerefMut for Vec<T> {
    #[inline(always)]
    fn deref_mut(&mut self) -> &mut [T] {
        &mut self.0
    }
}

impl<'a, T> IntoIterator for &'a Vec<T> {
    type Item = &'a T;
    type IntoIter = std::slice::Iter<'a, T>;

    fn into_iter(self) -> Self::IntoIter {
        self.0.iter()
    }
}

impl<T: fmt::Debug> fmt::Debug for Vec<T> {
    fn fmt(&self, formatter: &mut fmt::Formatter) -> fmt::Result {
        self.0.fmt(formatter)
    }
}

/// A text that may grow, as a vector does.
pub struct String(std::string::String);

impl String {
    /// The empty text. It takes no memory.
    pub fn new(_alloc: Global) -> Self {
        String(std::string::String::new())
    }

    /// A copy of a text.
    pub fn from_str(alloc: Global, text: &str) -> Result<Self, AllocError> {
        let mut copy = String::new(alloc);
        copy.push_str(text)?;
        Ok(copy)
    }

    /// Appends a copy of a text.
    pub fn push_str(&mut self, text: &str) -> Result<(), AllocError> {
        self.0.try_reserve(text.len()).map_err(|_| AllocError)?;
        self.0.push_str(text);
        Ok(())
    }

    /// What it grows by.
    pub fn allocator(&self) -> &Global {
        &Global
    }

    pub fn as_str(&self) -> &str {
        &self.0
    }
}

impl Deref for String {
    type Target = str;

    fn deref(&self) -> &str {
        &self.0
    }
}

impl fmt::Debug for String {
    fn fmt(&self, formatter: &mut fmt::Formatter) -> fmt::Result {
        self.0.fmt(formatter)
    }
}
