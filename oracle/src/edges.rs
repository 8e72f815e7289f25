//! Ours: hand-built cases at the edges of document 01's rules, each with the outcome that it gives and why.

use crate::{
  case::{ANSWER_WORDS, Answer, Asked, Call, Case, WORK_WORDS},
  draft::{
    Binding, Definition, Generics, Impl, Member, Query, Sheet, Table, Trait, flex_question,
    impl_question,
  },
  layout::Style,
  rng::Rng,
  sheet::kind,
};

mod checks;
mod limits;
mod pinned;
mod searches;

pub use checks::checks;
pub use limits::{large, limits};
pub use pinned::pinned;
pub use searches::searches;

/// A case with its outcome and the reason.
#[derive(Debug, Clone)]
pub struct Edge {
  pub case: Case,
  pub outcome: Outcome,
  pub why: String,
}

#[derive(Debug, Clone, PartialEq, Eq)]
pub enum Outcome {
  /// This answer, as document 01 prints it.
  Printed(Answer),
  /// Answered, at this count where it is told.
  Found(Option<u32>),
  /// Answered at this count, where the Rust's closing assertion fails.
  Closed(u32),
  /// Refused with this number, at this count where it is told.
  Refused(u32, Option<u32>),
}

impl Outcome {
  /// Whether an answer line is of this outcome.
  pub fn holds_of(&self, answer: &str) -> bool {
    let begins = |begin: String, count: Option<u32>| {
      let begin = format!("{begin}{}", count.map_or(String::new(), |count| format!("{count} ")));
      format!("{answer} ").starts_with(&begin)
    };
    match self {
      Outcome::Printed(printed) => printed.to_string() == answer,
      Outcome::Found(count) => begins("ok ".into(), *count),
      Outcome::Closed(count) => begins("assert ".into(), Some(*count)),
      Outcome::Refused(number, count) => {
        *answer == number.to_string() || begins(format!("no {number} "), *count)
      }
    }
  }
}

fn impl_call(sheet: Vec<u32>, source: u32, count: u32, question: Vec<u32>) -> Call {
  Call {
    asked: Asked::Impl { basic: 0 },
    source,
    generics: 0,
    count,
    sheet,
    question,
    answer_words: ANSWER_WORDS,
    work_words: WORK_WORDS,
  }
}

fn flex_call(sheet: Vec<u32>, source: u32, count: u32, question: Vec<u32>) -> Call {
  Call { asked: Asked::Flex, ..impl_call(sheet, source, count, question) }
}

/// An impl for S of A that needs A, one for Leaf; so many S round Leaf are asked for.
fn nested(levels: usize, count: u32) -> Call {
  let mut draft = Draft::nested();
  let mut word = draft.table.add(kind::STRUCT, 0, &[]);
  for _ in 0..levels {
    word = draft.table.add(kind::STRUCT, 1, &[word]);
  }
  draft.query = Query { trait_: 1, args: vec![word] };
  Call { count, ..draft.call() }
}

/// A sheet and an impl question as lists.
#[derive(Clone, Default)]
struct Draft {
  sheet: Sheet,
  table: Table,
  query: Query,
}

impl Draft {
  /// One definition, generics without parameters, and generics with one that asks trait 0 of it; impls as `nested` says.
  fn nested() -> Draft {
    let mut sheet = Sheet { structs: vec![(0, 0), (0, 0)], ..Sheet::default() };
    sheet.traits.push(Trait { definition: 0, arity: 1, inherent: 0 });
    let mut generics = Generics { type_params: 1, ..Generics::default() };
    let param = generics.table.add(kind::PARAM, 0, &[]);
    generics.impl_params.push(Query { trait_: 1, args: vec![param] });
    sheet.generics = vec![Generics::default(), generics];

    let mut round = Impl { generics: 1, ..Impl::default() };
    let param = round.table.add(kind::PARAM, 0, &[]);
    let arg = round.table.add(kind::STRUCT, 1, &[param]);
    round.query = Query { trait_: 1, args: vec![arg] };
    let mut leaf = Impl::default();
    let arg = leaf.table.add(kind::STRUCT, 0, &[]);
    leaf.query = Query { trait_: 1, args: vec![arg] };
    sheet.impls = vec![round, leaf];
    let bindings = vec![Binding { vis: 0, impl_: 0 }, Binding { vis: 0, impl_: 1 }];
    sheet.definitions.push(Definition { bindings, ..Definition::default() });
    Draft { sheet, ..Draft::default() }
  }

  /// Something of every sort of record, and a question that is found two levels deep.
  fn rich() -> Draft {
    let mut draft = Draft::nested();
    let sheet = &mut draft.sheet;
    sheet.definitions[0].named.push(Member { vis: 1, import: 0, id: 1 });
    sheet.definitions[0].implicit.push(Member { vis: 0, import: 1, id: 0 });
    sheet.definitions[0].trait_ = 1;
    sheet.definitions.push(Definition { parent: 1, ..Definition::default() });
    sheet.definitions.push(Definition { trait_vis: 3, ..Definition::default() });
    sheet.traits.push(Trait { definition: 1, arity: 2, inherent: 1 });
    sheet.traits.push(Trait { definition: 2, arity: 1, inherent: 0 });
    sheet.traits.push(Trait { definition: 2, arity: 0, inherent: 0 });
    (sheet.opaques, sheet.enums, sheet.imports) = (vec![1], vec![2], vec![3]);
    (sheet.unions, sheet.closures) = (vec![(0, 1)], vec![3]);
    (sheet.prelude, sheet.fork, sheet.drop, sheet.duplicate, sheet.erase) = (1, 1, 3, 1, 2);
    let leaf = draft.table.add(kind::STRUCT, 0, &[]);
    let word = draft.table.add(kind::STRUCT, 1, &[leaf]);
    draft.query = Query { trait_: 1, args: vec![word] };
    draft
  }

  /// `rich`, with a node of each kind in the table of impl 1, behind the one that its argument names.
  fn all_kinds() -> Draft {
    let mut draft = Draft::rich();
    let table = &mut draft.sheet.impls[1].table;
    table.add(kind::UNKNOWN, 0, &[]);
    table.add(kind::TUPLE, 0, &[0, 2]);
    table.add(kind::OPAQUE, 0, &[1]);
    table.add(kind::ENUM, 0, &[]);
    table.add(kind::UNION, 0, &[0]);
    table.add(kind::FN, u32::MAX, &[]);
    table.add(kind::CLOSURE, 0, &[0, 4]);
    table.add(kind::REF, 0, &[3]);
    table.add(kind::KEY, u32::MAX, &[]);
    table.add(kind::NEVER, 0, &[]);
    table.add(kind::DEFAULT, 0, &[]);
    table.add(kind::ERROR, 0, &[]);
    draft
  }

  fn call(&self) -> Call {
    let rng = &mut Rng::new(0);
    let question = impl_question(&self.table, &self.query, Style::PLAIN, rng);
    impl_call(self.sheet.words(Style::PLAIN, rng), 0, 0, question)
  }

  fn flex(&self, ty: u32) -> Call {
    let rng = &mut Rng::new(0);
    let question = flex_question(&self.table, ty, Style::PLAIN, rng);
    flex_call(self.sheet.words(Style::PLAIN, rng), 0, 0, question)
  }
}

/// Places of the nodes of `all_kinds`, by kind.
const NODE_OF_KIND: [usize; 14] = [1, usize::MAX, 2, 3, 0, 4, 5, 6, 7, 8, 9, 10, 11, 12];

/// Gathers edges.
#[derive(Default)]
struct Edges(Vec<Edge>);

impl Edges {
  fn add(&mut self, case: impl Into<Case>, outcome: Outcome, why: impl Into<String>) {
    self.0.push(Edge { case: case.into(), outcome, why: why.into() });
  }

  fn no(&mut self, number: u32, case: impl Into<Case>, why: impl Into<String>) {
    self.add(case, Outcome::Refused(number, None), why);
  }

  fn ok(&mut self, case: impl Into<Case>, why: impl Into<String>) {
    self.add(case, Outcome::Found(None), why);
  }

  /// `rich`, with its lists changed.
  fn rich(&mut self, number: u32, why: &str, change: impl FnOnce(&mut Draft)) {
    let mut draft = Draft::rich();
    change(&mut draft);
    let outcome = if number == 0 { Outcome::Found(None) } else { Outcome::Refused(number, None) };
    self.add(draft.call(), outcome, why);
  }

  /// `all_kinds`, with its lists changed.
  fn kinds(&mut self, number: u32, why: &str, change: impl FnOnce(&mut Draft)) {
    let mut draft = Draft::all_kinds();
    change(&mut draft);
    let outcome = if number == 0 { Outcome::Found(None) } else { Outcome::Refused(number, None) };
    self.add(draft.call(), outcome, why);
  }

  /// `rich`, with its call changed.
  fn rich_call(&mut self, number: u32, why: &str, change: impl FnOnce(&mut Call)) {
    let mut call = Draft::rich().call();
    change(&mut call);
    let outcome = if number == 0 { Outcome::Found(None) } else { Outcome::Refused(number, None) };
    self.add(call, outcome, why);
  }
}

impl From<Call> for Case {
  fn from(call: Call) -> Case {
    Case::Call(call)
  }
}
