//! Sizes and limits 14 to 17 at their edges.

use super::{Draft, Edge, Edges, Outcome, nested};
use crate::{
  case::Call,
  draft::{Binding, Definition, Generics, Impl, Query, Sheet, Table, Trait},
  sheet::{flag, kind},
};

/// Limits 14 to 17, and the step limit beside them, on both sides.
pub fn limits() -> Vec<Edge> {
  let mut edges = Edges::default();
  depth_edges(&mut edges);
  result_edges(&mut edges);
  tree_edges(&mut edges);
  type_edges(&mut edges);
  edges.0
}

fn depth_edges(edges: &mut Edges) {
  let no = |number, count| Outcome::Refused(number, Some(count));
  for levels in 0..=15 {
    let steps = levels as u32 + 1;
    edges.add(nested(levels, 0), Outcome::Found(Some(steps)), format!("{levels} S round Leaf"));
  }
  for levels in [16, 17, 20, 40] {
    edges.add(
      nested(levels, 0),
      no(15, 17),
      format!("{levels} S round Leaf: the question at depth 17"),
    );
  }
  edges.add(nested(15, 1_984), Outcome::Found(Some(2_000)), "15 S, the last step is 2,000");
  edges.add(nested(15, 1_985), no(18, 2_001), "15 S, a step too many");
  edges.add(nested(16, 1_983), no(15, 2_000), "16 S, depth 17 at step 2,000");
  edges.add(
    nested(16, 1_984),
    no(18, 2_001),
    "16 S, depth 17 at step 2,001: the count is tested first",
  );
  edges.add(nested(16, 1_999), no(18, 2_001), "16 S, the limit long before depth 17");
}

/// A draft of traits without arguments; each impl is bound in definition 0.
#[derive(Default)]
struct Tower(Sheet);

impl Tower {
  fn new() -> Tower {
    let definitions = vec![Definition::default()];
    Tower(Sheet { definitions, generics: vec![Generics::default()], ..Sheet::default() })
  }

  fn add_trait(&mut self) -> u32 {
    self.0.traits.push(Trait { definition: 0, arity: 0, inherent: 0 });
    self.0.traits.len() as u32
  }

  /// An impl of trait? `of` with so many type parameters, that asks for these trait?s.
  fn add_impl(&mut self, of: u32, type_params: u32, asks: &[u32]) {
    let impl_params = asks.iter().map(|&trait_| Query { trait_, args: Vec::new() }).collect();
    self.0.generics.push(Generics { type_params, impl_params, ..Generics::default() });
    let generics = self.0.generics.len() as u32 - 1;
    let query = Query { trait_: of, args: Vec::new() };
    self.0.impls.push(Impl { generics, flags: flag::NAMED, table: Table::default(), query });
    let impl_ = self.0.impls.len() as u32 - 1;
    self.0.definitions[0].bindings.push(Binding { vis: 0, impl_ });
  }

  /// A trait? with one impl, whose tree has so many nodes, each with so many type parameters.
  fn trait_of_size(&mut self, size: usize, type_params: u32, known: &mut Vec<(usize, u32)>) -> u32 {
    if let Some(&(_, trait_)) = known.iter().find(|(of, _)| *of == size) {
      return trait_;
    }
    let below = size - 1;
    let parts = below.min(4);
    let asks: Vec<u32> = (0..parts)
      .map(|part| self.trait_of_size((below + part) / parts, type_params, known))
      .collect();
    let trait_ = self.add_trait();
    self.add_impl(trait_, type_params, &asks);
    known.push((size, trait_));
    trait_
  }

  fn call(&self, trait_: u32) -> Call {
    let draft = Draft {
      sheet: self.0.clone(),
      query: Query { trait_, args: Vec::new() },
      ..Draft::default()
    };
    draft.call()
  }
}

fn result_edges(edges: &mut Edges) {
  for many in 1..=6 {
    let mut tower = Tower::new();
    let trait_ = tower.add_trait();
    (0..many).for_each(|_| tower.add_impl(trait_, 0, &[]));
    let outcome = match many {
      1 => Outcome::Found(Some(1)),
      2..=4 => Outcome::Refused(21, Some(1)),
      _ => Outcome::Refused(16, Some(1)),
    };
    edges.add(tower.call(trait_), outcome, format!("{many} results of one question"));
  }
  for (first, second) in
    [(1, 1), (1, 4), (2, 2), (2, 3), (3, 2), (4, 1), (4, 2), (5, 0), (0, 5), (1, 5), (4, 0)]
  {
    let mut tower = Tower::new();
    let [top, one, other] = [0; 3].map(|_| tower.add_trait());
    tower.add_impl(top, 0, &[one, other]);
    (0..first).for_each(|_| tower.add_impl(one, 0, &[]));
    (0..second).for_each(|_| tower.add_impl(other, 0, &[]));
    let number = match (first, second) {
      (1, 1) => 0,
      (0, _) | (4, 0) => 20,
      (5, _) | (_, 5) => 16,
      _ if first * second > 4 => 16,
      _ => 21,
    };
    let outcome = if number == 0 { Outcome::Found(None) } else { Outcome::Refused(number, None) };
    edges.add(
      tower.call(top),
      outcome,
      format!("{first} times {second} results of two sub-questions"),
    );
  }
  // Three candidates of two results each.
  let mut tower = Tower::new();
  let [top, below] = [0; 2].map(|_| tower.add_trait());
  (0..3).for_each(|_| tower.add_impl(top, 0, &[below]));
  (0..2).for_each(|_| tower.add_impl(below, 0, &[]));
  edges.add(
    tower.call(top),
    Outcome::Refused(16, Some(4)),
    "the fifth of six results by three candidates",
  );
}

fn tree_edges(edges: &mut Edges) {
  for (size, number) in [(2, 0), (5, 0), (255, 0), (256, 0), (257, 17), (258, 17), (300, 17)] {
    let mut tower = Tower::new();
    let trait_ = tower.trait_of_size(size, 0, &mut Vec::new());
    let outcome =
      if number == 0 { Outcome::Found(Some(size as u32)) } else { Outcome::Refused(17, None) };
    edges.add(tower.call(trait_), outcome, format!("a tree of {size} nodes"));
  }
}

fn type_edges(edges: &mut Edges) {
  for (size, last, number) in
    [(32, 0, 0), (31, 8, 0), (31, 7, 0), (32, 1, 14), (33, 0, 14), (40, 0, 14)]
  {
    // `size` impls of 8 type parameters, and one of `last`.
    let mut tower = Tower::new();
    let known = &mut Vec::new();
    let main = tower.trait_of_size(size, 8, known);
    let [end, top] = [0; 2].map(|_| tower.add_trait());
    tower.add_impl(end, last, &[]);
    tower.add_impl(top, 0, &[main, end]);
    let outcome = if number == 0 { Outcome::Found(None) } else { Outcome::Refused(14, None) };
    edges.add(tower.call(top), outcome, format!("{} fresh unknowns", 8 * size as u32 + last));
  }
}

/// Cases of many words: sizes at their limits.
pub fn large() -> Vec<Edge> {
  let mut edges = Edges::default();
  edges.rich_call(0, "a sheet of 4,096 words", |call| call.sheet.resize(4_096, 7));
  edges.rich_call(1, "a sheet of 4,097 words", |call| call.sheet.resize(4_097, 7));
  edges.rich_call(0, "a question of 1,024 words", |call| call.question.resize(1_024, 7));
  edges.rich_call(2, "a question of 1,025 words", |call| call.question.resize(1_025, 7));
  for (many, number) in [(128, 0), (129, 8)] {
    edges.rich(number, &format!("{many} definitions"), |d| {
      d.sheet.definitions.resize(many, Definition { parent: 1, ..Definition::default() });
    });
    edges.rich(number, &format!("{many} impls"), |d| {
      d.sheet
        .impls
        .resize(many, Impl { query: Query { trait_: 4, args: Vec::new() }, ..Impl::default() });
    });
  }
  for (many, number) in [(255, 20), (256, 14)] {
    let mut draft = Draft::nested();
    draft.sheet.impls[1].table = Table::default();
    refs(&mut draft.sheet.impls[1].table, many);
    draft.sheet.impls[1].query.args[0] = 2 * (many as u32 - 1);
    draft.table.add(kind::NEVER, 0, &[]);
    draft.query = Query { trait_: 1, args: vec![0] };
    edges.no(
      number,
      draft.call(),
      format!("a signature of {many} nodes beside the question's one"),
    );
  }
  for (many, number) in [(128, 0), (129, 14)] {
    let mut draft = Draft::nested();
    (draft.sheet.generics[1].impl_params, draft.sheet.impls[0].query.args[0]) = (Vec::new(), 0);
    refs(&mut draft.table, many);
    draft.query = Query { trait_: 1, args: vec![2 * (many as u32 - 1)] };
    let outcome =
      if number == 0 { Outcome::Found(None) } else { Outcome::Refused(number, Some(1)) };
    edges.add(
      draft.call(),
      outcome,
      format!("the last import of {many} nodes beside the question's {many}"),
    );
  }
  for (many, number) in [(255, 0), (256, 14)] {
    let mut draft = Draft::nested();
    refs(&mut draft.sheet.generics[0].table, many);
    let args = vec![2 * (many as u32 - 1)];
    draft.sheet.generics[0].impl_params.push(Query { trait_: 2, args });
    draft.sheet.traits.push(Trait { definition: 0, arity: 1, inherent: 0 });
    draft.table.add(kind::UNKNOWN, 0, &[]);
    draft.query = Query { trait_: 2, args: vec![0] };
    let outcome =
      if number == 0 { Outcome::Found(Some(1)) } else { Outcome::Refused(number, Some(1)) };
    edges.add(
      draft.call(),
      outcome,
      format!("a parameter of {many} nodes beside the question's one"),
    );
  }
  let mut draft = Draft::nested();
  refs(&mut draft.sheet.generics[0].table, 300);
  draft.query = Query { trait_: 1, args: vec![0] };
  draft.table.add(kind::STRUCT, 0, &[]);
  edges.ok(draft.call(), "a sheet's table of 300 nodes that no search imports");
  edges.0
}

/// So many nodes: a Never and Refs round it.
fn refs(table: &mut Table, many: usize) {
  let mut word = table.add(kind::NEVER, 0, &[]);
  for _ in 1..many {
    word = table.add(kind::REF, 0, &[word]);
  }
}
