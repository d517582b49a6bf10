//! Stands in for `oxc_index`: vectors that are asked by an index type of their own.
use std::marker::PhantomData;
use std::ops::{Index, IndexMut};

pub trait Idx: Copy {
    fn from_usize(n: usize) -> Self;
    fn index(self) -> usize;
}

#[derive(Debug, Clone)]
pub struct IndexVec<I, T> {
    pub raw: Vec<T>,
    index: PhantomData<I>,
}

impl<I, T> Default for IndexVec<I, T> {
    fn default() -> Self {
        IndexVec::from_vec(Vec::new())
    }
}

impl<I, T> IndexVec<I, T> {
    pub fn from_vec(raw: Vec<T>) -> Self {
        IndexVec {
            raw,
            index: PhantomData,
        }
    }

    pub fn len(&self) -> usize {
        self.raw.len()
    }

    pub fn is_empty(&self) -> bool {
        self.raw.is_empty()
    }

    pub fn iter(&self) -> std::slice::Iter<'_, T> {
        self.raw.iter()
    }

    pub fn iter_mut(&mut self) -> std::slice::IterMut<'_, T> {
        self.raw.iter_mut()
    }
}

impl<I: Idx, T> IndexVec<I, T> {
    pub fn iter_enumerated(&self) -> impl Iterator<Item = (I, &T)> {
        self.raw.iter().enumerate().map(|(n, x)| (I::from_usize(n), x))
    }

    pub fn iter_mut_enumerated(&mut self) -> impl Iterator<Item = (I, &mut T)> {
        self.raw.iter_mut().enumerate().map(|(n, x)| (I::from_usize(n), x))
    }

    pub fn get(&self, at: I) -> Option<&T> {
        self.raw.get(at.index())
    }

    pub fn push(&mut self, x: T) -> I {
        self.raw.push(x);
        I::from_usize(self.raw.len() - 1)
    }
}

impl<I: Idx, T> Index<I> for IndexVec<I, T> {
    type Output = T;

    fn index(&self, at: I) -> &T {
        &self.raw[at.index()]
    }
}

impl<I: Idx, T> IndexMut<I> for IndexVec<I, T> {
    fn index_mut(&mut self, at: I) -> &mut T {
        &mut self.raw[at.index()]
    }
}

impl<'a, I, T> IntoIterator for &'a IndexVec<I, T> {
    type Item = &'a T;
    type IntoIter = std::slice::Iter<'a, T>;

    fn into_iter(self) -> Self::IntoIter {
        self.raw.iter()
    }
}

impl<I, T> FromIterator<T> for IndexVec<I, T> {
    fn from_iter<X: IntoIterator<Item = T>>(items: X) -> Self {
        IndexVec::from_vec(items.into_iter().collect())
    }
}

#[macro_export]
macro_rules! index_vec {
    ($x:expr; $n:expr) => { $crate::IndexVec::from_vec(vec![$x; $n]) };
    ($($x:expr),* $(,)?) => { $crate::IndexVec::from_vec(vec![$($x),*]) };
}
