//! Joins of types that share what is below them, in each place where a call joins types.

use oracle::{
  case::Call,
  draft::{Generics, Impl, Query, Sheet, Table},
  rng::Rng,
  sheet::{flag, kind},
};

use super::{bare, bind, call, dense, fits, query};

/// Where types are joined.
#[derive(Debug, Clone, Copy, PartialEq, Eq)]
pub enum Place {
  /// A candidate's signature with the question.
  Search,
  /// The question with the last import of an impl call; of a flex call.
  ImplClosing,
  FlexClosing,
  /// Fork's type with drop's.
  ForkDrop,
}

/// How a type is round the one below.
#[derive(Debug, Clone, Copy, PartialEq, Eq)]
pub enum Shape {
  /// So many times.
  Times(usize),
  /// The one below and the one below that; in the other order.
  Fibonacci,
  FibonacciBack,
  /// Twice, the second time inverted.
  Inverted,
  /// Once between two unknowns.
  Unknowns,
  /// Twice, with an unknown between.
  UnknownBetween,
  /// Eight times, where the other is round the eight below it: every level meets every level.
  Skew,
}

/// Two types of one shape and so many levels meet. At the bottom they fail, or there is Error, which is indeterminate.
#[derive(Debug, Clone, Copy)]
pub struct Join {
  pub place: Place,
  pub shape: Shape,
  pub levels: usize,
  pub error: bool,
}

impl Shape {
  /// A type of a shape round two others, to so many levels. Unknowns stand on one side of a join and Never on the other.
  fn round(self, table: &mut Table, bottom: u32, levels: usize, known: bool) -> u32 {
    let mut below = vec![bottom; 8];
    let never = table.add(kind::NEVER, 0, &[]);
    for _ in 0..levels {
      let last = below[0];
      let mut other = || if known { never } else { table.add(0, 0, &[]) };
      let children = match self {
        Shape::Times(times) => vec![last; times],
        Shape::Fibonacci => vec![last, below[1]],
        Shape::FibonacciBack => vec![below[1], last],
        Shape::Inverted => vec![last, last ^ 1],
        Shape::Unknowns => vec![other(), last, other()],
        Shape::UnknownBetween => vec![last, other(), last],
        Shape::Skew if known => vec![last; 8],
        Shape::Skew => below.clone(),
      };
      below.rotate_right(1);
      below[0] = table.add(kind::TUPLE, 0, &children);
    }
    below[0]
  }
}

impl Join {
  pub fn call(&self) -> Call {
    match self.place {
      Place::Search => self.in_search(),
      Place::ImplClosing => self.in_closing(false),
      Place::FlexClosing => self.in_closing(true),
      Place::ForkDrop => self.fork_with_drop(),
    }
  }

  /// What is innermost on a side: a struct of that side, or Error.
  fn bottom(&self, table: &mut Table, side: u32) -> u32 {
    if self.error { table.add(kind::ERROR, 0, &[]) } else { table.add(kind::STRUCT, side, &[]) }
  }

  fn side(&self, table: &mut Table, side: u32) -> u32 {
    let bottom = self.bottom(table, side);
    self.shape.round(table, bottom, self.levels, side == 0)
  }

  /// T[x, y] is asked for, and there is an impl for T[A, A].
  fn in_search(&self) -> Call {
    let mut sheet = bare(2, false);
    sheet.structs = vec![(0, 0); 2];
    for_any(&mut sheet, [0, 0], false);
    let mut table = Table::default();
    let args = [0, 1].map(|side| self.side(&mut table, side));
    call(&sheet, &table, &args, 1, false)
  }

  /// A type meets its own copy after the search. Round Error it is indeterminate. Round Default the search has found it to be the
  /// inverse of its like, since both have one Default, and its copy, which has another, fails.
  fn in_closing(&self, flex: bool) -> Call {
    let mut sheet = bare(3, flex);
    let mut table = Table::default();
    let bottom = table.add(if self.error { kind::ERROR } else { kind::DEFAULT }, 0, &[]);
    let mut side = |known| self.shape.round(&mut table, bottom, self.levels, known);
    let x = side(self.shape == Shape::Skew);
    if self.error {
      let y = if self.shape == Shape::Skew { side(false) } else { x };
      for_any(&mut sheet, [0, 2, 4], flex);
      return call(&sheet, &table, &[x, y, x], 1, flex);
    }
    let y = side(false);
    let reference = table.add(kind::REF, 0, &[x]);
    for_any(&mut sheet, [0, 2, 3], flex);
    call(&sheet, &table, &[reference, x, y], 1, flex)
  }

  /// An unknown that fork's impl and drop's have a type for each.
  fn fork_with_drop(&self) -> Call {
    fork_and_drop(
      [0, 1].map(|side| {
        let mut table = Table::default();
        let word = self.side(&mut table, side);
        (table, word)
      }),
      0,
    )
  }
}

/// An unknown is asked for, with an impl of Fork and one of Drop for a type of a table each, and so many structs more than two.
fn fork_and_drop(types: [(Table, u32); 2], structs: usize) -> Call {
  let mut sheet = bare(1, true);
  sheet.structs = vec![(0, 1); structs + 2];
  sheet.traits.push(sheet.traits[0]);
  sheet.drop = 2;
  for (trait_, (mut table, word)) in (1..).zip(types) {
    let query = Query { trait_, ..query(&mut table, &[word], true) };
    bind(&mut sheet, Impl { flags: flag::NAMED, table, query, ..Impl::default() });
  }
  let mut table = Table::default();
  let unknown = table.add(0, 0, &[]);
  call(&sheet, &table, &[unknown], 1, true)
}

/// An impl of trait 0 for any types, by type words over its parameters.
fn for_any<const N: usize>(sheet: &mut Sheet, args: [u32; N], flex: bool) {
  let generics = sheet.generics.len() as u32;
  let type_params = N as u32;
  sheet.generics.push(Generics { type_params, ..Generics::default() });
  let mut table = Table::default();
  (0..type_params).for_each(|id| {
    table.add(kind::PARAM, id, &[]);
  });
  let query = query(&mut table, &args, flex);
  bind(sheet, Impl { generics, flags: flag::NAMED, table, query });
}

/// A type of so many nodes of eight children meets its own copy with success, and all of it is answered.
pub fn copied(nodes: usize, flex: bool) -> Call {
  let mut sheet = bare(1, flex);
  for_any(&mut sheet, [0], flex);
  let mut table = Table::default();
  let word = dense(&mut table, None, nodes);
  call(&sheet, &table, &[word], 1, flex)
}

/// A tower that is indeterminate is met again and again, and between a join changes the table: links of a tower, an unknown
/// that meets Never, and the link before.
pub fn restless(links: usize, levels: usize) -> Call {
  fork_and_drop(
    [true, false].map(|known| {
      let mut table = Table::default();
      let bottom = table.add(kind::ERROR, 0, &[]);
      let tower = Shape::Skew.round(&mut table, bottom, levels, known);
      let never = table.add(kind::NEVER, 0, &[]);
      let mut link = table.add(kind::TUPLE, 0, &[]);
      for _ in 0..links {
        let other = if known { never } else { table.add(0, 0, &[]) };
        link = table.add(kind::TUPLE, 0, &[tower, other, link]);
      }
      (table, link)
    }),
    0,
  )
}

/// As `restless`, where each level of the towers also meets, four times, the inverse of a type of so many structs that is its own
/// inverse; so many other structs stand before theirs.
pub fn mirrored(links: usize, levels: usize, nodes: usize, structs: usize) -> Call {
  let types = [true, false].map(|known| {
    let mut table = Table::default();
    let dense = dense(&mut table, Some(structs as u32 + 1), nodes);
    let mut below = [table.add(kind::ERROR, 0, &[]); 4];
    for _ in 0..levels {
      let [a, b, c, d] = if known { [below[0]; 4] } else { below };
      let mirror = if known { dense } else { dense ^ 1 };
      let level = table.add(kind::TUPLE, 0, &[a, b, c, d, mirror, mirror, mirror, mirror]);
      below.rotate_right(1);
      below[0] = level;
    }
    let never = table.add(kind::NEVER, 0, &[]);
    let mut link = dense;
    for _ in 0..links {
      let other = if known { never } else { table.add(0, 0, &[]) };
      link = table.add(kind::TUPLE, 0, &[link, below[0], other]);
    }
    (table, link)
  });
  fork_and_drop(types, structs)
}

/// The join with as many of its levels as have room in tables of 256 nodes and in the words of sheet and question.
pub fn fitted(mut join: Join) -> Join {
  let nodes = match join.shape {
    Shape::Unknowns => 3,
    Shape::UnknownBetween => 2,
    _ => 1,
  };
  // How many tables' worth of the type stand in one table at the end.
  let copies = match (join.place, join.error && join.shape != Shape::Skew) {
    (Place::Search | Place::ForkDrop, _) | (Place::ImplClosing, true) => 2,
    (Place::FlexClosing, true) => 3,
    (Place::ImplClosing, false) => 4,
    (Place::FlexClosing, false) => 6,
  };
  join.levels = join.levels.min(240 / (copies * nodes));
  while !fits(&join.call()) {
    join.levels -= 1;
  }
  join
}

/// A join by chance, of at most so many levels.
pub fn random(rng: &mut Rng, levels: usize) -> Join {
  use Shape::*;
  let place = rng.pick(&[Place::Search, Place::ImplClosing, Place::FlexClosing, Place::ForkDrop]);
  let times = Times(rng.range(2, 8));
  let shape =
    rng.pick(&[times, Fibonacci, FibonacciBack, Inverted, Unknowns, UnknownBetween, Skew]);
  fitted(Join { place, shape, levels: rng.range(1, levels), error: rng.chance(50) })
}
