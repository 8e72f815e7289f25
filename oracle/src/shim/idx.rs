//! Shim for vine_util: index types, vectors by index, a counter, and the macros that the Rust calls.

use std::{
  cell::Cell,
  collections::{HashMap, HashSet},
  fmt::{self, Debug},
  marker::PhantomData,
  ops::{Index, IndexMut, Range},
};

pub type IntMap<K, V> = HashMap<K, V>;
pub type IntSet<K> = HashSet<K>;

pub trait Idx: Copy {
  /// Whether vectors by this index are type tables, whose greatest length is noted.
  const TYPES: bool;
  fn from_usize(n: usize) -> Self;
  fn to_usize(self) -> usize;
}

thread_local! {
  static MOST_TYPES: Cell<usize> = const { Cell::new(0) };
}

/// Forgets the greatest length of a type table.
pub fn forget_most_types() {
  MOST_TYPES.set(0);
}

/// The greatest length that pushing has given a type table since it was forgotten.
pub fn most_types() -> usize {
  MOST_TYPES.get()
}

#[derive(Clone)]
pub struct IdxVec<I, T> {
  pub vec: Vec<T>,
  by: PhantomData<I>,
}

impl<I, T> Default for IdxVec<I, T> {
  fn default() -> Self {
    Vec::new().into()
  }
}

impl<I, T> From<Vec<T>> for IdxVec<I, T> {
  fn from(vec: Vec<T>) -> Self {
    IdxVec { vec, by: PhantomData }
  }
}

impl<I, T: Debug> Debug for IdxVec<I, T> {
  fn fmt(&self, f: &mut fmt::Formatter<'_>) -> fmt::Result {
    self.vec.fmt(f)
  }
}

impl<I: Idx, T> IdxVec<I, T> {
  pub fn push(&mut self, value: T) -> I {
    let index = self.next_index();
    self.vec.push(value);
    if I::TYPES && self.vec.len() > MOST_TYPES.get() {
      MOST_TYPES.set(self.vec.len());
    }
    index
  }

  pub fn next_index(&self) -> I {
    I::from_usize(self.vec.len())
  }

  pub fn keys_from(&self, first: I) -> impl Iterator<Item = I> + use<I, T> {
    (first.to_usize()..self.vec.len()).map(I::from_usize)
  }

  pub fn get2_mut(&mut self, a: I, b: I) -> Option<(&mut T, &mut T)> {
    let [a, b] = self.vec.get_disjoint_mut([a.to_usize(), b.to_usize()]).ok()?;
    Some((a, b))
  }

  pub fn clear(&mut self) {
    self.vec.clear();
  }

  pub fn len(&self) -> usize {
    self.vec.len()
  }

  pub fn is_empty(&self) -> bool {
    self.vec.is_empty()
  }
}

impl<I: Idx, T> Index<I> for IdxVec<I, T> {
  type Output = T;
  fn index(&self, index: I) -> &T {
    &self.vec[index.to_usize()]
  }
}

impl<I: Idx, T> IndexMut<I> for IdxVec<I, T> {
  fn index_mut(&mut self, index: I) -> &mut T {
    &mut self.vec[index.to_usize()]
  }
}

impl<'a, I: Idx, T> IntoIterator for &'a mut IdxVec<I, T> {
  type Item = (I, &'a mut T);
  type IntoIter = std::vec::IntoIter<Self::Item>;
  fn into_iter(self) -> Self::IntoIter {
    let pairs: Vec<_> =
      self.vec.iter_mut().enumerate().map(|(n, t)| (I::from_usize(n), t)).collect();
    pairs.into_iter()
  }
}

#[derive(Debug, Default)]
pub struct Counter<T>(T);

impl Counter<usize> {
  #[allow(clippy::should_implement_trait)]
  pub fn next(&mut self) -> usize {
    self.0 += 1;
    self.0 - 1
  }
}

pub trait RangeExt: Sized {
  fn iter(self) -> Self {
    self
  }
}

impl RangeExt for Range<usize> {}

/// `new_idx!(pub Name)`, or `new_idx!(pub Name; n => ["x{n}"])` with the form in which it is shown.
#[macro_export]
macro_rules! new_idx {
  ($vis:vis $name:ident) => {
    $crate::new_idx!($vis $name; n => ["{n}"]);
  };
  ($vis:vis $name:ident; $n:ident => [$fmt:literal]) => {
    #[derive(Clone, Copy, Default, PartialEq, Eq, PartialOrd, Ord, Hash)]
    $vis struct $name(pub usize);

    impl ::std::fmt::Debug for $name {
      fn fmt(&self, f: &mut ::std::fmt::Formatter<'_>) -> ::std::fmt::Result {
        let $n = self.0;
        write!(f, $fmt)
      }
    }

    impl $crate::idx::Idx for $name {
      const TYPES: bool = matches!(stringify!($name).as_bytes(), b"TypeIdx");
      fn from_usize(n: usize) -> Self {
        $name(n)
      }
      fn to_usize(self) -> usize {
        self.0
      }
    }
  };
}

/// `multi_iter! { Name { A, B } }`: an iterator that is one of several; `Name::A` makes it from what iterates.
#[macro_export]
macro_rules! multi_iter {
  ($name:ident { $($variant:ident),* $(,)? }) => {
    enum OneOf<$($variant),*> {
      $($variant($variant)),*
    }

    struct $name<$($variant),*>(OneOf<$($variant),*>);

    impl<Item, $($variant: Iterator<Item = Item>),*> Iterator for $name<$($variant),*> {
      type Item = Item;
      fn next(&mut self) -> Option<Item> {
        match &mut self.0 {
          $(OneOf::$variant(iter) => iter.next()),*
        }
      }
    }

    $crate::multi_iter!(@makers $name [$($variant)*] $($variant)*);
  };
  (@makers $name:ident $all:tt $($one:ident)*) => {
    $($crate::multi_iter!(@maker $name $all $one);)*
  };
  (@maker $name:ident [$($all:ident)*] $one:ident) => {
    impl<$($all),*> $name<$($all),*> {
      #[allow(non_snake_case)]
      fn $one(from: impl IntoIterator<IntoIter = $one>) -> Self {
        $name(OneOf::$one(from.into_iter()))
      }
    }
  };
}
