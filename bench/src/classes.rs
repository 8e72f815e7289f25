//! The classes of calls that are timed.

use oracle::{
  case::{ANSWER_WORDS, Asked, Call, Case, WORK_WORDS},
  draft::{Binding, Definition, Generics, Impl, Member, Query, Sheet, Table, Trait, impl_question},
  edges,
  layout::Style,
  rng::Rng,
  sheet::{flag, kind},
};

/// Calls that are timed together.
pub struct Class {
  pub name: &'static str,
  pub calls: Vec<Call>,
}

/// A call for a table and a query on a sheet, from definition 0.
fn call(sheet: &Sheet, table: &Table, query: Query) -> Call {
  let rng = &mut Rng::new(0);
  Call {
    asked: Asked::Impl { basic: 0 },
    source: 0,
    generics: 0,
    count: 0,
    sheet: sheet.words(Style::PLAIN, rng),
    question: impl_question(table, &query, Style::PLAIN, rng),
    answer_words: ANSWER_WORDS,
    work_words: WORK_WORDS,
  }
}

/// A sheet with one definition, and generics without parameters.
fn bare() -> Sheet {
  let definitions = vec![Definition::default()];
  Sheet { definitions, generics: vec![Generics::default()], ..Sheet::default() }
}

/// Adds an impl of trait? `of` for struct `id` of as many parameters as asked; each is asked for with the same trait.
fn add_impl(sheet: &mut Sheet, definition: usize, of: u32, id: u32, params: u32) {
  let mut generics = Generics { type_params: params, ..Generics::default() };
  let mut impl_ =
    Impl { generics: sheet.generics.len() as u32, flags: flag::NAMED, ..Impl::default() };
  let mut inner = Vec::new();
  for param in 0..params {
    let word = generics.table.add(kind::PARAM, param, &[]);
    generics.impl_params.push(Query { trait_: of, args: vec![word] });
    inner.push(impl_.table.add(kind::PARAM, param, &[]));
  }
  let word = impl_.table.add(kind::STRUCT, id, &inner);
  impl_.query = Query { trait_: of, args: vec![word] };
  if params == 0 {
    impl_.generics = 0;
  } else {
    sheet.generics.push(generics);
  }
  let binding = Binding { vis: 0, impl_: sheet.impls.len() as u32 };
  sheet.impls.push(impl_);
  sheet.definitions[definition].bindings.push(binding);
}

fn add_trait(sheet: &mut Sheet, definition: u32) -> u32 {
  sheet.traits.push(Trait { definition, arity: 1, inherent: 0 });
  sheet.traits.len() as u32
}

/// Adds a module, a public member of definition 0.
fn add_module(sheet: &mut Sheet) -> usize {
  let id = sheet.definitions.len();
  sheet.definitions.push(Definition { parent: 1, ..Definition::default() });
  sheet.definitions[0].named.push(Member { vis: 0, import: 0, id: id as u32 });
  id
}

/// Document 01's sheet and question.
fn pin() -> Call {
  match &edges::pinned()[0].case {
    Case::Call(call) => call.clone(),
    Case::List(_) => unreachable!("the first pinned case is a call"),
  }
}

/// Seven modules, each with a trait and its impls for four leaves, Box and Pair; forty questions, most of them nested.
fn book() -> Vec<Call> {
  const BOX: u32 = 4;
  const PAIR: u32 = 5;
  let mut sheet = bare();
  sheet.structs = vec![(0, 0); 6];
  let traits = Vec::from_iter((0..7).map(|_| {
    let module = add_module(&mut sheet);
    let trait_ = add_trait(&mut sheet, module as u32);
    (0..4).for_each(|leaf| add_impl(&mut sheet, module, trait_, leaf, 0));
    add_impl(&mut sheet, module, trait_, BOX, 1);
    add_impl(&mut sheet, module, trait_, PAIR, 2);
    trait_
  }));
  let question = |place: usize| {
    let mut table = Table::default();
    let mut word = table.add(kind::STRUCT, place as u32 % 4, &[]);
    for level in 0..place % 5 {
      word = match (place + level) % 3 {
        0 => table.add(kind::STRUCT, BOX, &[word]),
        _ => table.add(kind::STRUCT, PAIR, &[word, word]),
      };
    }
    call(&sheet, &table, Query { trait_: traits[place % 7], args: vec![word] })
  };
  (0..40).map(question).collect()
}

/// So many S round Leaf, each with one impl that needs what it is round.
pub fn nested(levels: usize) -> Call {
  let mut sheet = bare();
  sheet.structs = vec![(0, 0); 2];
  let trait_ = add_trait(&mut sheet, 0);
  add_impl(&mut sheet, 0, trait_, 0, 0);
  add_impl(&mut sheet, 0, trait_, 1, 1);
  let mut table = Table::default();
  let mut word = table.add(kind::STRUCT, 0, &[]);
  for _ in 0..levels {
    word = table.add(kind::STRUCT, 1, &[word]);
  }
  call(&sheet, &table, Query { trait_, args: vec![word] })
}

/// Pairs of pairs, so many levels round Leaf, each with one impl that needs both parts.
fn pairs(levels: usize) -> Call {
  let mut sheet = bare();
  sheet.structs = vec![(0, 0); 2];
  let trait_ = add_trait(&mut sheet, 0);
  add_impl(&mut sheet, 0, trait_, 0, 0);
  add_impl(&mut sheet, 0, trait_, 1, 2);
  let mut table = Table::default();
  let mut word = table.add(kind::STRUCT, 0, &[]);
  for _ in 0..levels {
    word = table.add(kind::STRUCT, 1, &[word, word]);
  }
  call(&sheet, &table, Query { trait_, args: vec![word] })
}

/// Four impls for S of A that need A, none for what is innermost: four times as many questions at each level.
fn without_end(levels: usize) -> Call {
  let mut sheet = bare();
  sheet.structs = vec![(0, 0); 2];
  let trait_ = add_trait(&mut sheet, 0);
  (0..4).for_each(|_| add_impl(&mut sheet, 0, trait_, 1, 1));
  let mut table = Table::default();
  let mut word = table.add(kind::STRUCT, 0, &[]);
  for _ in 0..levels {
    word = table.add(kind::STRUCT, 1, &[word]);
  }
  call(&sheet, &table, Query { trait_, args: vec![word] })
}

/// 128 definitions with an impl in each, for as many structs, in 4,096 words; S nested in S is asked for.
fn largest(levels: usize) -> Call {
  let mut sheet = bare();
  sheet.structs = vec![(0, 0); 128];
  let trait_ = add_trait(&mut sheet, 0);
  add_impl(&mut sheet, 0, trait_, 127, 1);
  for id in 0..127 {
    let module = add_module(&mut sheet);
    add_impl(&mut sheet, module, trait_, id, 0);
  }
  let mut table = Table::default();
  let mut word = table.add(kind::STRUCT, 126, &[]);
  for _ in 0..levels {
    word = table.add(kind::STRUCT, 127, &[word]);
  }
  let mut call = call(&sheet, &table, Query { trait_, args: vec![word] });
  assert!(call.sheet.len() <= 4_096, "{} words of a sheet", call.sheet.len());
  call.sheet.resize(4_096, 0);
  call
}

/// A stored case by hand, by its reason.
fn edge(why: &str) -> Call {
  let found = edges::limits().into_iter().find(|edge| edge.why == why);
  match found.map(|edge| edge.case) {
    Some(Case::Call(call)) => call,
    _ => panic!("no stored case: {why}"),
  }
}

pub fn all() -> Vec<Class> {
  let class = |name, calls| Class { name, calls };
  vec![
    class("smallest call: Pin", vec![pin()]),
    class("book of forty questions, all", book()),
    class("deep search: 15 S round Leaf", vec![nested(15)]),
    class("deep search: pairs, 4 levels", vec![pairs(4)]),
    class("deep search: pairs, 5 levels", vec![pairs(5)]),
    class("deep search: a tree of 256 nodes", vec![edge("a tree of 256 nodes")]),
    class("deep search: 256 fresh unknowns", vec![edge("256 fresh unknowns")]),
    class("to the step limit: 15 levels", vec![without_end(15)]),
    class("to the step limit: 6 levels", vec![without_end(6)]),
    class("largest sheet, 1 step", vec![largest(0)]),
    class("largest sheet, 16 steps", vec![largest(15)]),
  ]
}

/// S as deep as a search goes, round so many Refs, with an impl for any Ref: the deepest search joins deep types.
fn nested_refs(refs: usize) -> Call {
  let mut sheet = bare();
  sheet.structs = vec![(0, 0); 2];
  let trait_ = add_trait(&mut sheet, 0);
  add_impl(&mut sheet, 0, trait_, 1, 1);
  sheet.generics.push(Generics { type_params: 1, ..Generics::default() });
  let mut impl_ = Impl { generics: 2, flags: flag::NAMED, ..Impl::default() };
  let param = impl_.table.add(kind::PARAM, 0, &[]);
  let word = impl_.table.add(kind::REF, 0, &[param]);
  impl_.query = Query { trait_, args: vec![word] };
  sheet.impls.push(impl_);
  sheet.definitions[0].bindings.push(Binding { vis: 0, impl_: 1 });
  let mut table = Table::default();
  let mut word = table.add(kind::STRUCT, 0, &[]);
  for _ in 0..refs {
    word = table.add(kind::REF, 0, &[word]);
  }
  for _ in 0..15 {
    word = table.add(kind::STRUCT, 1, &[word]);
  }
  call(&sheet, &table, Query { trait_, args: vec![word] })
}

/// Every stored case by hand at the limits, with its reason, and the deepest search with deep types.
pub fn at_the_limits() -> Vec<(String, Call)> {
  let edges = edges::limits().into_iter().chain(edges::large());
  let calls = edges.filter_map(|edge| match edge.case {
    Case::Call(call) => Some((edge.why, call)),
    Case::List(_) => None,
  });
  calls.chain([("15 S round 110 Refs".into(), nested_refs(110))]).collect()
}
