//! The lists and the allocator that the crates use, over those of Rust.

use std::ops::{Deref, DerefMut, Index, IndexMut};
use std::slice::SliceIndex;

#[derive(Clone, Copy, Debug)]
pub struct Global;

#[derive(Clone, Copy, Debug)]
pub struct AllocError;

type Made<T> = Result<T, AllocError>;

pub struct Vec<T>(std::vec::Vec<T>);

impl<T> Deref for Vec<T> {
    type Target = [T];

    fn deref(&self) -> &[T] {
        &self.0
    }
}

impl<T> DerefMut for Vec<T> {
    fn deref_mut(&mut self) -> &mut [T] {
        &mut self.0
    }
}

impl<T, I: SliceIndex<[T]>> Index<I> for Vec<T> {
    type Output = I::Output;

    fn index(&self, index: I) -> &I::Output {
        &self.0[index]
    }
}

impl<T, I: SliceIndex<[T]>> IndexMut<I> for Vec<T> {
    fn index_mut(&mut self, index: I) -> &mut I::Output {
        &mut self.0[index]
    }
}

impl<T> Vec<T> {
    pub fn new(_: Global) -> Self {
        Vec(std::vec::Vec::new())
    }

    pub fn with_capacity(_: Global, room: usize) -> Made<Self> {
        Ok(Vec(std::vec::Vec::with_capacity(room)))
    }

    pub fn push_reserved(&mut self, item: T) {
        assert!(self.0.len() < self.0.capacity());
        self.0.push(item)
    }

    pub fn push(&mut self, item: T) -> Made<()> {
        self.0.push(item);
        Ok(())
    }

    pub fn append(&mut self, other: &mut Vec<T>) -> Made<()> {
        self.0.append(&mut other.0);
        Ok(())
    }

    pub fn reserve(&mut self, room: usize) -> Made<()> {
        self.0.reserve(room);
        Ok(())
    }

    pub fn as_slice(&self) -> &[T] {
        &self.0
    }

    pub fn as_mut_slice(&mut self) -> &mut [T] {
        &mut self.0
    }

    pub fn clear(&mut self) {
        self.0.clear()
    }

    pub fn truncate(&mut self, len: usize) {
        self.0.truncate(len)
    }
}

impl<T: Clone> Vec<T> {
    pub fn from_elem(_: Global, item: T, count: usize) -> Made<Self> {
        Ok(Vec(vec![item; count]))
    }

    pub fn from_slice(_: Global, items: &[T]) -> Made<Self> {
        Ok(Vec(items.to_vec()))
    }

    pub fn extend_from_slice(&mut self, items: &[T]) -> Made<()> {
        self.0.extend_from_slice(items);
        Ok(())
    }
}
