//! Ours: document 01's checks 1 to 13, which the Rust does not have. Written from the document alone.
//!
//! 7 covers all chains before 8 covers all values, so every function for a value may walk chains freely.

use std::collections::HashSet;

use crate::{
  case::{Asked, Call},
  sheet::{chain, header, kind, optional, records},
};

/// A refusal: document 01's number and what it is about.
#[derive(Debug, Clone, PartialEq, Eq)]
pub struct Refusal {
  pub number: u32,
  pub why: String,
}

pub type Checked = Result<(), Refusal>;

const MOST_DEFINITIONS: usize = 128;
const MOST_IMPLS: usize = 128;
const MOST_TYPE_PARAMS: u32 = 8;
const MOST_IMPL_PARAMS: usize = 4;
const MOST_ARITY: u32 = 4;
const MOST_FLAGS: u32 = 15;
const MOST_FLEX: u32 = 3;

/// Least and most children of each kind.
const CHILDREN: [[usize; 2]; 14] = [
  [0, 0],
  [0, 0],
  [0, 8],
  [0, 8],
  [0, 8],
  [0, 8],
  [0, 8],
  [0, 0],
  [1, 8],
  [1, 1],
  [0, 0],
  [0, 0],
  [0, 0],
  [0, 0],
];

fn refuse_if(condition: bool, number: u32, why: impl Into<String>) -> Checked {
  if condition { Err(Refusal { number, why: why.into() }) } else { Ok(()) }
}

/// All checks of a call, in order; the workspace's constant is `work`.
pub fn check_call(call: &Call, work: u32) -> Checked {
  check_length(&call.sheet)?;
  let question = call.question.len();
  refuse_if(!(3..=1_024).contains(&question), 2, format!("a question of {question} words"))?;
  let words = call.answer_words;
  refuse_if(words < 10_240, 3, format!("an answer buffer of {words} words"))?;
  refuse_if(call.work_words < work, 4, format!("a workspace of {} words", call.work_words))?;
  refuse_if(call.count > 1_000_000, 5, format!("a count of {}", call.count))?;
  check_sheet(&call.sheet)?;
  check_ids(call)?;
  check_question(call)
}

/// The checks of the listing program.
pub fn check_list(sheet: &[u32]) -> Checked {
  check_length(sheet)?;
  check_sheet(sheet)
}

fn check_length(sheet: &[u32]) -> Checked {
  let length = sheet.len();
  refuse_if(!(16..=4_096).contains(&length), 1, format!("a sheet of {length} words"))
}

fn check_sheet(sheet: &[u32]) -> Checked {
  let edition = sheet[header::EDITION];
  refuse_if(edition != 1, 6, format!("edition {edition}"))?;
  Chains { words: sheet, lowest: header::WORDS, number: 7, seen: HashSet::new() }.check_sheet()?;
  Values::new(sheet).check_sheet()?;
  for [_, _, table, _] in records::<4>(sheet, sheet[header::GENERICS]) {
    check_acyclic(sheet, table, 9)?;
  }
  for [_, _, _, _, table, _] in records::<6>(sheet, sheet[header::IMPLS]) {
    check_acyclic(sheet, table, 9)?;
  }
  Ok(())
}

fn check_ids(call: &Call) -> Checked {
  let values = Values::new(&call.sheet);
  refuse_if(call.source as usize >= values.definitions, 10, format!("source {}", call.source))?;
  refuse_if(call.generics as usize >= values.generics, 10, format!("generics {}", call.generics))?;
  match call.asked {
    Asked::Impl { basic } => refuse_if(basic > 1, 10, format!("basic flag {basic}")),
    Asked::Flex => Ok(()),
  }
}

fn check_question(call: &Call) -> Checked {
  let question = &call.question[..];
  let is_impl = call.asked != Asked::Flex;
  let mut chains = Chains { words: question, lowest: 3, number: 11, seen: HashSet::new() };
  chains.check(Record::Node, question[0])?;
  if is_impl {
    chains.check(Record::Cell, question[2])?;
  }

  let values = Values { number: 12, ..Values::new(&call.sheet) };
  values.check_table(question, question[0], values.type_params(call.generics as usize))?;
  if is_impl {
    values.check_args(question, question[0], question[1], question[2])?;
  } else {
    let nodes = chain(question, question[0]).len();
    values.refuse_if(question[1] as usize / 2 >= nodes, "the type word names no node")?;
    values.refuse_if(question[2] != 0, "word 2 of a flex question is not 0")?;
  }
  check_acyclic(question, question[0], 13)
}

/// The kinds of records that chains are made of.
#[derive(Debug, Clone, Copy, PartialEq, Eq, Hash)]
enum Record {
  Definition,
  Binding,
  Member,
  Import,
  Generics,
  ImplParam,
  Trait,
  Impl,
  Opaque,
  Struct,
  Enum,
  Union,
  Closure,
  Node,
  Cell,
}

impl Record {
  /// How many words it has.
  fn length(self) -> usize {
    match self {
      Record::Definition => 7,
      Record::Impl => 6,
      Record::Node => 5,
      Record::Member | Record::Generics | Record::Trait => 4,
      Record::Binding | Record::ImplParam | Record::Struct | Record::Union => 3,
      Record::Import | Record::Opaque | Record::Enum | Record::Closure | Record::Cell => 2,
    }
  }

  /// The heads in it: which word, and what it heads.
  fn heads(self) -> &'static [(usize, Record)] {
    match self {
      Record::Definition => &[(4, Record::Binding), (5, Record::Member), (6, Record::Member)],
      Record::Generics => &[(2, Record::Node), (3, Record::ImplParam)],
      Record::ImplParam => &[(2, Record::Cell)],
      Record::Impl => &[(4, Record::Node), (5, Record::Cell)],
      Record::Node => &[(4, Record::Cell)],
      _ => &[],
    }
  }
}

/// 7 and 11: the chain rule, for every chain that a head anywhere heads.
struct Chains<'a> {
  words: &'a [u32],
  /// The lowest head but zero.
  lowest: usize,
  number: u32,
  seen: HashSet<(Record, u32)>,
}

impl Chains<'_> {
  fn check_sheet(&mut self) -> Checked {
    let heads = [
      (header::DEFINITIONS, Record::Definition),
      (header::GENERICS, Record::Generics),
      (header::TRAITS, Record::Trait),
      (header::IMPLS, Record::Impl),
      (header::OPAQUES, Record::Opaque),
      (header::STRUCTS, Record::Struct),
      (header::ENUMS, Record::Enum),
      (header::UNIONS, Record::Union),
      (header::CLOSURES, Record::Closure),
      (header::IMPORTS, Record::Import),
    ];
    heads.into_iter().try_for_each(|(word, record)| self.check(record, self.words[word]))
  }

  fn check(&mut self, record: Record, head: u32) -> Checked {
    if head == 0 || !self.seen.insert((record, head)) {
      return Ok(());
    }
    let low = (head as usize) < self.lowest;
    refuse_if(low, self.number, format!("{record:?} head {head} below {}", self.lowest))?;
    let mut place = head as usize;
    while place != 0 {
      let end = place + record.length();
      let past = end > self.words.len();
      refuse_if(past, self.number, format!("{record:?} record at {place} passes the end"))?;
      let next = self.words[place] as usize;
      let early = next != 0 && next < end;
      refuse_if(early, self.number, format!("{record:?} record at {place} has next {next}"))?;
      for &(word, inner) in record.heads() {
        self.check(inner, self.words[place + word])?;
      }
      place = next;
    }
    Ok(())
  }
}

/// 8 and 12: every value of every record, used or not. How many records of each sort the sheet has.
struct Values<'a> {
  sheet: &'a [u32],
  number: u32,
  definitions: usize,
  generics: usize,
  traits: usize,
  impls: usize,
  opaques: usize,
  structs: usize,
  enums: usize,
  unions: usize,
  closures: usize,
  imports: usize,
}

impl<'a> Values<'a> {
  fn new(sheet: &'a [u32]) -> Self {
    let many = |word: usize| chain(sheet, sheet[word]).len();
    Values {
      sheet,
      number: 8,
      definitions: many(header::DEFINITIONS),
      generics: many(header::GENERICS),
      traits: many(header::TRAITS),
      impls: many(header::IMPLS),
      opaques: many(header::OPAQUES),
      structs: many(header::STRUCTS),
      enums: many(header::ENUMS),
      unions: many(header::UNIONS),
      closures: many(header::CLOSURES),
      imports: many(header::IMPORTS),
    }
  }

  fn refuse_if(&self, condition: bool, why: &str) -> Checked {
    refuse_if(condition, self.number, why)
  }

  fn check_id(&self, id: u32, many: usize, what: &str) -> Checked {
    refuse_if(id as usize >= many, self.number, format!("{what} {id} of {many}"))
  }

  fn check_optional(&self, word: u32, many: usize, what: &str) -> Checked {
    optional(word).map_or(Ok(()), |id| self.check_id(id as u32, many, what))
  }

  fn check_sheet(&self) -> Checked {
    let sheet = self.sheet;
    self.refuse_if(self.definitions > MOST_DEFINITIONS, "over 128 definitions")?;
    self.refuse_if(self.impls > MOST_IMPLS, "over 128 impls")?;
    self.check_builtins()?;
    for (id, record) in records::<7>(sheet, sheet[header::DEFINITIONS]).into_iter().enumerate() {
      self.check_definition(id, record)?;
    }
    for record in records::<4>(sheet, sheet[header::GENERICS]) {
      self.check_generics(record)?;
    }
    for record in records::<4>(sheet, sheet[header::TRAITS]) {
      self.check_trait(record)?;
    }
    for record in records::<6>(sheet, sheet[header::IMPLS]) {
      self.check_impl(record)?;
    }
    self.check_named_types()
  }

  fn check_builtins(&self) -> Checked {
    self.check_optional(self.sheet[header::PRELUDE], self.definitions, "prelude")?;
    for word in [header::FORK, header::DROP] {
      self.check_optional(self.sheet[word], self.traits, "fork or drop")?;
      let set = self.sheet[word] != 0;
      let arity = self.arity(self.sheet[word]);
      self.refuse_if(set && arity != 1, "fork or drop of an arity other than 1")?;
    }
    for word in [header::DUPLICATE, header::ERASE] {
      self.check_optional(self.sheet[word], self.impls, "duplicate or erase")?;
    }
    Ok(())
  }

  fn check_vis(&self, vis: u32) -> Checked {
    self.check_optional(vis, self.definitions, "vis")
  }

  fn check_definition(&self, id: usize, record: [u32; 7]) -> Checked {
    let [_, parent, trait_vis, trait_, bindings, named, implicit] = record;
    self.check_optional(parent, id, "parent")?;
    self.check_vis(trait_vis)?;
    self.check_optional(trait_, self.traits, "trait")?;
    for [_, vis, id] in records::<3>(self.sheet, bindings) {
      self.check_vis(vis)?;
      self.check_id(id, self.impls, "bound impl")?;
    }
    for head in [named, implicit] {
      for [_, vis, import, id] in records::<4>(self.sheet, head) {
        self.check_vis(vis)?;
        self.refuse_if(import > 1, "a member that is neither child nor import")?;
        let many = if import == 1 { self.imports } else { self.definitions };
        self.check_id(id, many, "member")?;
      }
    }
    Ok(())
  }

  fn check_generics(&self, record: [u32; 4]) -> Checked {
    let [_, type_params, table, impl_params] = record;
    self.refuse_if(type_params > MOST_TYPE_PARAMS, "over 8 type parameters")?;
    self.check_table(self.sheet, table, type_params)?;
    let impl_params = records::<3>(self.sheet, impl_params);
    self.refuse_if(impl_params.len() > MOST_IMPL_PARAMS, "over 4 impl parameters")?;
    for [_, trait_, args] in impl_params {
      self.check_args(self.sheet, table, trait_, args)?;
    }
    Ok(())
  }

  fn check_trait(&self, record: [u32; 4]) -> Checked {
    let [_, definition, arity, inherent] = record;
    self.check_id(definition, self.definitions, "definition of a trait")?;
    self.refuse_if(arity > MOST_ARITY, "an arity over 4")?;
    self.refuse_if(inherent > arity, "an inherent count over the arity")
  }

  fn check_impl(&self, record: [u32; 6]) -> Checked {
    let [_, generics, flags, trait_, table, args] = record;
    self.check_id(generics, self.generics, "generics of an impl")?;
    self.refuse_if(flags > MOST_FLAGS, "flags over 15")?;
    self.check_table(self.sheet, table, self.type_params(generics as usize))?;
    self.check_args(self.sheet, table, trait_, args)
  }

  fn check_named_types(&self) -> Checked {
    let sheet = self.sheet;
    for head in [sheet[header::OPAQUES], sheet[header::ENUMS]] {
      for [_, definition] in records::<2>(sheet, head) {
        self.check_id(definition, self.definitions, "definition of an opaque or enum")?;
      }
    }
    for head in [sheet[header::STRUCTS], sheet[header::UNIONS]] {
      for [_, definition, self_dual] in records::<3>(sheet, head) {
        self.check_id(definition, self.definitions, "definition of a struct or union")?;
        self.refuse_if(self_dual > 1, "a self-dual mark over 1")?;
      }
    }
    for [_, flex] in records::<2>(sheet, sheet[header::CLOSURES]) {
      self.refuse_if(flex > MOST_FLEX, "a closure's flex over 3")?;
    }
    for [_, definition] in records::<2>(sheet, sheet[header::IMPORTS]) {
      self.check_optional(definition, self.definitions, "definition of an import")?;
    }
    Ok(())
  }

  /// The type parameter count of generics that are there.
  fn type_params(&self, generics: usize) -> u32 {
    self.sheet[chain(self.sheet, self.sheet[header::GENERICS])[generics] + 1]
  }

  /// The arity of a trait? that is there; 0 for none.
  fn arity(&self, trait_: u32) -> u32 {
    optional(trait_)
      .map_or(0, |id| self.sheet[chain(self.sheet, self.sheet[header::TRAITS])[id] + 2])
  }

  /// A table of the sheet or of the question, under so many type parameters.
  fn check_table(&self, words: &[u32], head: u32, type_params: u32) -> Checked {
    let nodes = records::<5>(words, head);
    for &[_, kind, inverted, id, children] in &nodes {
      self.refuse_if(kind > kind::ERROR, "a kind over 13")?;
      self.refuse_if(inverted > 1, "an inversion over 1")?;
      self.refuse_if(kind == kind::UNKNOWN && inverted != 0, "an inverted unknown")?;
      self.check_node_id(kind, id, type_params)?;
      let children = records::<2>(words, children);
      let [least, most] = CHILDREN[kind as usize];
      let many = children.len();
      let wrong = !(least..=most).contains(&many);
      refuse_if(wrong, self.number, format!("{many} children of a node of kind {kind}"))?;
      self.check_types(&children, nodes.len())?;
    }
    Ok(())
  }

  fn check_node_id(&self, kind: u32, id: u32, type_params: u32) -> Checked {
    match kind {
      kind::FN | kind::KEY => Ok(()),
      kind::PARAM => self.check_id(id, type_params as usize, "Param"),
      kind::OPAQUE => self.check_id(id, self.opaques, "Opaque"),
      kind::STRUCT => self.check_id(id, self.structs, "Struct"),
      kind::ENUM => self.check_id(id, self.enums, "Enum"),
      kind::UNION => self.check_id(id, self.unions, "Union"),
      kind::CLOSURE => self.check_id(id, self.closures, "Closure"),
      _ => self.refuse_if(id != 0, "an unused id that is not 0"),
    }
  }

  fn check_types(&self, cells: &[[u32; 2]], nodes: usize) -> Checked {
    cells.iter().try_for_each(|[_, word]| self.check_id(word / 2, nodes, "node of a type word"))
  }

  /// A trait? and its arguments, over a table.
  fn check_args(&self, words: &[u32], table: u32, trait_: u32, args: u32) -> Checked {
    self.check_optional(trait_, self.traits, "trait")?;
    let args = records::<2>(words, args);
    let arity = self.arity(trait_) as usize;
    let wrong = args.len() != arity;
    refuse_if(wrong, self.number, format!("{} arguments of a trait of arity {arity}", args.len()))?;
    self.check_types(&args, chain(words, table).len())
  }
}

/// 9 and 13: a type of the table reaches itself.
fn check_acyclic(words: &[u32], table: u32, number: u32) -> Checked {
  let children: Vec<Vec<usize>> = records::<5>(words, table)
    .into_iter()
    .map(|[.., head]| {
      records::<2>(words, head).iter().map(|[_, word]| *word as usize / 2).collect()
    })
    .collect();
  let mut walk = Walk { children: &children, states: vec![State::New; children.len()] };
  let cyclic = (0..children.len()).find(|&node| !walk.ends(node));
  cyclic.map_or(Ok(()), |node| {
    refuse_if(true, number, format!("node {node} reaches a type that reaches itself"))
  })
}

#[derive(Clone, Copy, PartialEq, Eq)]
enum State {
  New,
  /// On the way from the first node down to here.
  Open,
  /// Every way down from it ends.
  Ends,
}

struct Walk<'a> {
  children: &'a [Vec<usize>],
  states: Vec<State>,
}

impl Walk<'_> {
  /// Whether every way down from a node ends.
  fn ends(&mut self, node: usize) -> bool {
    match self.states[node] {
      State::Ends => return true,
      State::Open => return false,
      State::New => {}
    }
    self.states[node] = State::Open;
    let children = self.children;
    let ends = children[node].iter().all(|&child| self.ends(child));
    if ends {
      self.states[node] = State::Ends;
    }
    ends
  }
}
