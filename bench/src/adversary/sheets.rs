//! Sheets and questions whose checks, and whose candidate sets, take as long as can be.

use oracle::{
  case::Call,
  draft::{Binding, Definition, Generics, Impl, Member, Query, Sheet, Table, Trait},
  rng::Rng,
  sheet::{flag, kind},
};

use super::{DEFINITIONS, IMPLS, bare, bind, call, dense};

/// How the checks end.
#[derive(Debug, Clone, Copy, PartialEq, Eq)]
pub enum Ending {
  Passed,
  /// 9: a type of the last table reaches itself.
  Sheet,
  /// 13: one of the question does.
  Question,
}

/// So many generics, all with one table of so many nodes, which share their eight cells: the table is walked once for each. Then
/// a question of so many nodes.
pub fn tables(generics: usize, nodes: usize, asked: usize, ending: Ending) -> Call {
  let mut sheet = bare(1, false);
  let mut shared = Generics::default();
  let last = shared.table.add(kind::TUPLE, 0, &[]);
  for _ in 1..nodes {
    shared.table.add(kind::TUPLE, 0, &[last; 8]);
  }
  sheet.generics = vec![shared; generics];
  let mut impl_ = Impl { flags: flag::NAMED, ..Impl::default() };
  let word = impl_.table.add(kind::TUPLE, 0, if ending == Ending::Sheet { &[0] } else { &[] });
  impl_.query = Query { trait_: 1, args: vec![word] };
  bind(&mut sheet, impl_);
  let mut table = Table::default();
  let mut word = dense(&mut table, None, asked);
  if ending == Ending::Question {
    word = table.add(kind::TUPLE, 0, &[word, word + 2]);
  }
  call(&sheet, &table, &[word], 1, false)
}

/// Definitions that share their chains.
#[derive(Debug, Clone, Copy)]
pub struct Charts {
  pub definitions: usize,
  /// Members of the shared chain: children, and imports of them.
  pub children: usize,
  pub imports: usize,
  /// Bindings of the shared chain, and the impls that they name in turn, each of a trait of its own.
  pub bindings: usize,
  pub impls: usize,
  /// The edges have the vis of the last definition, so that all count for components and none for the source.
  pub closed: bool,
}

impl Charts {
  pub fn call(&self) -> Call {
    let mut sheet = Sheet { generics: vec![Generics::default()], ..Sheet::default() };
    let vis = if self.closed { self.definitions as u32 } else { 0 };
    let child = |id| Member { vis, import: 0, id: (id % self.definitions) as u32 };
    let import = |id| Member { vis, import: 1, id: (id % self.definitions) as u32 };
    let members =
      Vec::from_iter((0..self.children).map(child).chain((0..self.imports).map(import)));
    let binding = |place| Binding { vis, impl_: (place % self.impls) as u32 };
    let bindings = Vec::from_iter((0..self.bindings).map(binding));
    if self.imports > 0 {
      sheet.imports = (1..=self.definitions as u32).collect();
    }
    sheet.definitions = Vec::from_iter((0..self.definitions as u32).map(|parent| Definition {
      parent,
      trait_vis: vis,
      trait_: 1 + parent % self.impls as u32,
      bindings: bindings.clone(),
      named: members.clone(),
      implicit: members.clone(),
    }));
    for place in 0..self.impls {
      let definition = (place % self.definitions) as u32;
      sheet.traits.push(Trait { definition, arity: 0, inherent: 0 });
      let flags = if place % 2 == 0 { flag::NAMED } else { 0 };
      let query = Query { trait_: place as u32 + 1, args: Vec::new() };
      sheet.impls.push(Impl { flags, query, ..Impl::default() });
    }
    let mut call = call(&sheet, &Table::default(), &[], 1, false);
    call.source = self.definitions as u32 - 1;
    call
  }
}

/// A chart by chance.
pub fn random(rng: &mut Rng) -> Charts {
  let definitions = rng.range(1, DEFINITIONS);
  Charts {
    definitions,
    children: rng.range(0, 2 * definitions),
    imports: rng.range(0, definitions),
    bindings: rng.range(0, 500),
    impls: rng.range(1, IMPLS),
    closed: rng.chance(50),
  }
}
