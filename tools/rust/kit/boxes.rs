//! Lists that grow fallibly.
use crate::alloc::{AllocError, AllocFailed, Global};
use std::fmt;
use std::vec::Vec as List;

/// Rust's `Vec`, which grows fallibly. What doesn't grow is that one's.
#[derive(PartialEq, Eq, PartialOrd, Ord, Hash)]
pub struct Vec<T>(pub(crate) List<T>);

impl<T> Vec<T> {
    #[inline(always)]
    pub fn new(_: Global) -> Vec<T> {
        Vec(List::new())
    }

    pub fn with_capacity(_: Global, room: usize) -> Result<Vec<T>, AllocError> {
        let mut list = List::new();
        list.try_reserve_exact(room)?;
        Ok(Vec(list))
    }

    #[inline(always)]
    pub fn allocator(&self) -> &Global {
        &Global
    }

    #[inline(always)]
    pub fn push(&mut self, value: T) -> Result<(), AllocFailed<T>> {
        if self.0.len() == self.0.capacity() && self.grow().is_err() {
            return Err(AllocFailed { value });
        }
        self.0.push(value);
        Ok(())
    }

    #[cold]
    #[inline(never)]
    fn grow(&mut self) -> Result<(), AllocError> {
        Ok(self.0.try_reserve(1)?)
    }

    /// Adds a value for which there is room.
    #[inline(always)]
    pub fn push_reserved(&mut self, value: T) {
        debug_assert!(self.0.len() < self.0.capacity());
        self.0.push(value);
    }

    // By this name, since a trait has one too.
    #[inline(always)]
    pub fn len(&self) -> usize {
        self.0.len()
    }

    pub fn reserve(&mut self, more: usize) -> Result<(), AllocError> {
        Ok(self.0.try_reserve(more)?)
    }

    pub fn insert(&mut self, at: usize, value: T) -> Result<(), AllocFailed<T>> {
        if self.0.len() == self.0.capacity() && self.grow().is_err() {
            return Err(AllocFailed { value });
        }
        self.0.insert(at, value);
        Ok(())
    }

    /// Takes no memory: values of the sources that compare as equal are the same, so their order shows nowhere.
    pub fn sort(&mut self) -> Result<(), AllocError>
    where
        T: Ord,
    {
        self.0.sort_unstable();
        Ok(())
    }
}

impl<T: Clone> Vec<T> {
    pub fn from_elem(alloc: Global, value: T, length: usize) -> Result<Vec<T>, AllocError> {
        let mut made = Vec::with_capacity(alloc, length)?;
        made.0.resize(length, value);
        Ok(made)
    }

    pub fn from_array<const N: usize>(alloc: Global, values: [T; N]) -> Result<Vec<T>, AllocError> {
        let mut made = Vec::with_capacity(alloc, N)?;
        made.0.extend(values);
        Ok(made)
    }

    #[inline]
    pub fn extend_from_slice(&mut self, more: &[T]) -> Result<(), AllocError> {
        self.0.try_reserve(more.len())?;
        self.0.extend_from_slice(more);
        Ok(())
    }

    pub fn resize(&mut self, length: usize, value: T) -> Result<(), AllocError> {
        self.0.try_reserve(length.saturating_sub(self.0.len()))?;
        self.0.resize(length, value);
        Ok(())
    }
}

/// Methods of slices that take memory.
pub trait SliceIn<T> {
    fn to_vec_by(&self, alloc: Global) -> Result<Vec<T>, AllocError>;
}

impl<T: Clone> SliceIn<T> for [T] {
    fn to_vec_by(&self, alloc: Global) -> Result<Vec<T>, AllocError> {
        let mut made = Vec::with_capacity(alloc, self.len())?;
        made.0.extend_from_slice(self);
        Ok(made)
    }
}

/// The list of an iterator's items.
pub trait IteratorIn: Iterator + Sized {
    fn collect_by(self, alloc: Global) -> Result<Vec<Self::Item>, AllocError> {
        let mut made = Vec::with_capacity(alloc, self.size_hint().0)?;
        for it in self {
            made.push(it)?;
        }
        Ok(made)
    }
}

impl<I: Iterator> IteratorIn for I {}

crate::holds!(Vec<T>, List<T>);

impl<T> IntoIterator for Vec<T> {
    type Item = T;
    type IntoIter = std::vec::IntoIter<T>;

    #[inline]
    fn into_iter(self) -> Self::IntoIter {
        self.0.into_iter()
    }
}

impl<'a, T> IntoIterator for &'a Vec<T> {
    type Item = &'a T;
    type IntoIter = std::slice::Iter<'a, T>;

    #[inline(always)]
    fn into_iter(self) -> Self::IntoIter {
        self.0.iter()
    }
}

impl<'a, T> IntoIterator for &'a mut Vec<T> {
    type Item = &'a mut T;
    type IntoIter = std::slice::IterMut<'a, T>;

    #[inline(always)]
    fn into_iter(self) -> Self::IntoIter {
        self.0.iter_mut()
    }
}

impl<T: fmt::Debug> fmt::Debug for Vec<T> {
    fn fmt(&self, f: &mut fmt::Formatter<'_>) -> fmt::Result {
        self.0.fmt(f)
    }
}
