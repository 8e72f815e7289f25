//! A sheet and a question as lists, before they are laid out as words.

use crate::{
  layout::{Field, Fields, Style, lay_out},
  rng::Rng,
};

#[derive(Debug, Clone, Default)]
pub struct Sheet {
  pub definitions: Vec<Definition>,
  pub generics: Vec<Generics>,
  pub traits: Vec<Trait>,
  pub impls: Vec<Impl>,
  /// The definition of each.
  pub opaques: Vec<u32>,
  /// Definition and self-dual mark of each.
  pub structs: Vec<(u32, u32)>,
  pub enums: Vec<u32>,
  pub unions: Vec<(u32, u32)>,
  /// The flex of each.
  pub closures: Vec<u32>,
  /// definition? of each.
  pub imports: Vec<u32>,
  pub prelude: u32,
  pub fork: u32,
  pub drop: u32,
  pub duplicate: u32,
  pub erase: u32,
}

#[derive(Debug, Clone, Default)]
pub struct Definition {
  pub parent: u32,
  pub trait_vis: u32,
  pub trait_: u32,
  pub bindings: Vec<Binding>,
  pub named: Vec<Member>,
  pub implicit: Vec<Member>,
}

#[derive(Debug, Clone, Copy)]
pub struct Binding {
  pub vis: u32,
  pub impl_: u32,
}

#[derive(Debug, Clone, Copy)]
pub struct Member {
  pub vis: u32,
  pub import: u32,
  pub id: u32,
}

#[derive(Debug, Clone, Default)]
pub struct Generics {
  pub type_params: u32,
  pub table: Table,
  pub impl_params: Vec<Query>,
}

#[derive(Debug, Clone, Copy)]
pub struct Trait {
  pub definition: u32,
  pub arity: u32,
  pub inherent: u32,
}

#[derive(Debug, Clone, Default)]
pub struct Impl {
  pub generics: u32,
  pub flags: u32,
  pub table: Table,
  pub query: Query,
}

/// A trait? and its arguments, as type words.
#[derive(Debug, Clone, Default)]
pub struct Query {
  pub trait_: u32,
  pub args: Vec<u32>,
}

#[derive(Debug, Clone, Default)]
pub struct Table(pub Vec<Node>);

#[derive(Debug, Clone, Default, PartialEq, Eq)]
pub struct Node {
  pub kind: u32,
  pub inverted: u32,
  pub id: u32,
  /// Type words.
  pub children: Vec<u32>,
}

impl Table {
  /// Adds a node, upright, and gives its type word.
  pub fn add(&mut self, kind: u32, id: u32, children: &[u32]) -> u32 {
    self.0.push(Node { kind, inverted: 0, id, children: children.to_vec() });
    2 * (self.0.len() as u32 - 1)
  }

  fn chain(&self) -> Field {
    let node = |node: &Node| {
      vec![node.kind.into(), node.inverted.into(), node.id.into(), cells(&node.children)]
    };
    Field::Head(self.0.iter().map(node).collect())
  }
}

fn cells(types: &[u32]) -> Field {
  Field::Head(types.iter().map(|&word| vec![word.into()]).collect())
}

fn chain<T>(items: &[T], record: impl Fn(&T) -> Fields) -> Field {
  Field::Head(items.iter().map(record).collect())
}

fn members(members: &[Member]) -> Field {
  chain(members, |m| vec![m.vis.into(), m.import.into(), m.id.into()])
}

impl Sheet {
  pub fn words(&self, style: Style, rng: &mut Rng) -> Vec<u32> {
    let pair = |&(definition, mark): &(u32, u32)| vec![definition.into(), mark.into()];
    let single = |&word: &u32| vec![word.into()];
    let header = [
      1.into(),
      chain(&self.definitions, definition_record),
      chain(&self.generics, generics_record),
      chain(&self.traits, |t| vec![t.definition.into(), t.arity.into(), t.inherent.into()]),
      chain(&self.impls, impl_record),
      chain(&self.opaques, single),
      chain(&self.structs, pair),
      chain(&self.enums, single),
      chain(&self.unions, pair),
      chain(&self.closures, single),
      chain(&self.imports, single),
      self.prelude.into(),
      self.fork.into(),
      self.drop.into(),
      self.duplicate.into(),
      self.erase.into(),
    ];
    lay_out(&header, style, rng)
  }
}

fn definition_record(definition: &Definition) -> Fields {
  vec![
    definition.parent.into(),
    definition.trait_vis.into(),
    definition.trait_.into(),
    chain(&definition.bindings, |b| vec![b.vis.into(), b.impl_.into()]),
    members(&definition.named),
    members(&definition.implicit),
  ]
}

fn generics_record(generics: &Generics) -> Fields {
  let param = |query: &Query| vec![query.trait_.into(), cells(&query.args)];
  vec![generics.type_params.into(), generics.table.chain(), chain(&generics.impl_params, param)]
}

fn impl_record(impl_: &Impl) -> Fields {
  let Query { trait_, args } = &impl_.query;
  vec![
    impl_.generics.into(),
    impl_.flags.into(),
    (*trait_).into(),
    impl_.table.chain(),
    cells(args),
  ]
}

/// The words of an impl question.
pub fn impl_question(table: &Table, query: &Query, style: Style, rng: &mut Rng) -> Vec<u32> {
  lay_out(&[table.chain(), query.trait_.into(), cells(&query.args)], style, rng)
}

/// The words of a flex question.
pub fn flex_question(table: &Table, ty: u32, style: Style, rng: &mut Rng) -> Vec<u32> {
  lay_out(&[table.chain(), ty.into(), 0.into()], style, rng)
}
