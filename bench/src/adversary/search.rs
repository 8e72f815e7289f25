//! Searches of 2,000 steps, with as many candidates to each question as there can be, which fail as late as can be.

use oracle::{
  case::Call,
  draft::{Generics, Impl, Query, Sheet, Table},
  rng::Rng,
  sheet::{flag, kind},
};

use super::{IMPLS, bare, bind, call, chain, dense, dense_over, links, query, tower};

/// How the types of a question and of a candidate meet, before the candidate fails.
#[derive(Debug, Clone, Copy, PartialEq, Eq)]
pub enum Meeting {
  /// Nothing but what fails.
  Nothing,
  /// Nothing: the candidate's types are many, and its first argument fails.
  Import,
  /// Two types of one shape: a join for each node.
  Alike,
  /// Two types of one shape that differ in their last node alone: there it fails.
  Bottom,
  /// Two types of one shape whose last nodes are Errors.
  Errors,
  /// Two types of one shape, an unknown in place of the last node of one: what it is bound to fails at the end.
  Bound,
  /// Two types of one shape, and an argument that is inverted: there it fails.
  Mirrored,
  /// Two types of one shape, and an unknown that would be within itself.
  Within,
  /// A struct that is not self-dual and is inverted: there it fails.
  Turned,
  /// As `Bound`, but a first candidate brings the question's type from the sheet, which has room for more.
  Brought,
  /// Unknowns of the candidate, each of which is bound to a dense type.
  Unknowns,
  /// Places where a dense type meets its own inverse.
  Inverse,
  /// A type meets its own inverse, which its last node is not.
  Unlike,
  /// Two types of one shape, and an unknown that meets its own inverse.
  Opposed,
  /// Two chains of nodes that differ at their ends.
  Chain,
  /// A dense type with a parameter in place of its last node, and an unknown that would be within itself.
  Over,
  /// A parameter that meets copies of a dense type, and an unknown that would be within itself.
  Copies,
  /// An unknown of the question that meets copies of a dense type, and one that would be within itself.
  Brothers,
  /// An unknown of the question that is bound to a dense type over a parameter, and one that would be within itself.
  Deep,
  /// Two types of one shape, and an unknown that meets its own inverse and is bound then.
  Late,
  /// The same, where it is bound to a type that is its own inverse: the order alone makes it fail.
  Later,
  /// Two types of one shape, and two Defaults that meet inverted.
  Defaults,
  /// Two types of one shape, and two Defaults that have to be the same and meet inverted before.
  Twice,
  /// As `Unknowns`, and two Defaults that meet inverted.
  Bindings,
  /// Two types of one shape that differ in what a parameter at the bottom is bound to; for a first candidate they do not.
  Hidden,
}

/// A search in which `branch` candidates of a question ask a sub-question, to so many levels, and all others fail in the last
/// argument, after the first two have met with success.
#[derive(Debug, Clone, Copy)]
pub struct Search {
  pub flex: bool,
  pub levels: usize,
  pub branch: usize,
  pub meeting: Meeting,
  /// Dense types are of structs.
  pub of_structs: bool,
  /// Nodes of the dense type.
  pub dense: usize,
  /// Links that are met.
  pub links: usize,
  /// The dense type of a candidate is inverted.
  pub turned: bool,
  /// In place of an unknown that would be within itself, two Defaults that meet inverted.
  pub defaults: bool,
  /// The question's generics have four impl parameters that fail like the candidates.
  pub params: bool,
  /// Every sub-question is another: each candidate that asks one puts a type of its own round a fourth argument.
  pub tagged: bool,
  /// Candidates that succeed: what they give is dropped, since each sub-question is followed by one that has no answer.
  pub found: usize,
  /// Nodes of the tables of failing candidates that nothing reaches, behind all others.
  pub unreached: usize,
  /// Generics or structs that fill the sheet in front of those that are used.
  pub generics: usize,
  pub structs: usize,
}

impl Search {
  /// Whether the first test before a candidate is opened finds that it fails.
  pub fn is_found(&self) -> bool {
    use Meeting::{Bindings, Defaults, Later, Twice};
    !self.defaults && !matches!(self.meeting, Later | Defaults | Twice | Bindings)
  }

  pub fn call(&self) -> Call {
    let mut sheet = bare(3 + usize::from(self.tagged), self.flex);
    let self_dual = u32::from(self.meeting != Meeting::Turned);
    sheet.structs = vec![(0, self_dual); self.structs + 2];
    sheet.generics.extend(vec![Generics::default(); self.generics]);
    if self.params {
      let failing = self.failing(0, 0);
      let impl_params = vec![failing.query; 4];
      sheet.generics[0] = Generics { type_params: 1, table: failing.table, impl_params };
    }
    for place in 0..self.branch {
      let recursive = match sheet.impls.first() {
        Some(first) if !self.tagged => first.clone(),
        _ => self.recursive(&mut sheet, place as u32),
      };
      bind(&mut sheet, recursive);
    }
    sheet.generics.push(Generics { type_params: 1, ..Generics::default() });
    for _ in 0..self.found {
      let found = self.succeeding(sheet.generics.len() as u32 - 1);
      bind(&mut sheet, found);
    }
    let brings = usize::from(self.meeting == Meeting::Brought);
    for place in self.branch + self.found..IMPLS - brings {
      let failing = self.failing(sheet.generics.len() as u32 - 1, place as u32);
      bind(&mut sheet, failing);
    }
    let mut table = Table::default();
    let args = self.asked(&mut table);
    if self.meeting == Meeting::Brought {
      self.bring(&mut sheet);
      return call(&sheet, &table, &args, 2, self.flex);
    }
    call(&sheet, &table, &args, 1, self.flex)
  }

  /// Adds a trait of as many arguments, and a candidate for any of them that needs trait 0 for a tower, Never and the third.
  fn bring(&self, sheet: &mut Sheet) {
    sheet.traits.push(sheet.traits[0]);
    if self.flex {
      (sheet.fork, sheet.drop) = (2, 2);
    }
    let mut generics = Generics { type_params: 1, ..Generics::default() };
    let third = generics.table.add(kind::PARAM, 0, &[]);
    let last = generics.table.add(kind::TUPLE, 0, &[]);
    let tower = tower(&mut generics.table, self.struct_id(), self.dense, last);
    let never = generics.table.add(kind::NEVER, 0, &[]);
    let needed = self.query(&mut generics.table, [tower, never, third], None);
    generics.impl_params.push(needed);
    let generics_id = sheet.generics.len() as u32;
    sheet.generics.push(generics);
    let mut impl_ = Impl { generics: generics_id, flags: flag::NAMED, ..Impl::default() };
    let [first, second] = [(); 2].map(|()| impl_.table.add(0, 0, &[]));
    let third = impl_.table.add(kind::PARAM, 0, &[]);
    impl_.query = self.query(&mut impl_.table, [first, second, third], None);
    impl_.query.trait_ = 2;
    bind(sheet, impl_);
  }

  /// The struct that stands round what is asked below, and the one that dense types have.
  fn round(&self) -> u32 {
    self.structs as u32
  }

  fn dense(&self, table: &mut Table) -> u32 {
    dense(table, self.struct_id(), self.dense)
  }

  /// Links to copies of the dense type.
  fn copies(&self, table: &mut Table) -> u32 {
    links(table, self.links, |table| [(); 7].map(|()| self.dense(table)))
  }

  fn struct_id(&self) -> Option<u32> {
    self.of_structs.then_some(self.round() + 1)
  }

  /// A query for three types, and for a fourth if sub-questions are tagged: the one given, or anything.
  fn query(&self, table: &mut Table, args: [u32; 3], tag: Option<u32>) -> Query {
    let mut args = args.to_vec();
    if self.tagged {
      args.push(tag.unwrap_or_else(|| table.add(0, 0, &[])));
    }
    query(table, &args, self.flex)
  }

  /// T[A, B, S[C]], which needs T[A, B, C]; tagged T[A, B, S[C], D], which needs T[A, B, C, (Key, D)].
  fn recursive(&self, sheet: &mut Sheet, key: u32) -> Impl {
    let mut generics = Generics { type_params: 4, ..Generics::default() };
    let tag = self.tagged.then(|| {
      // What differs comes first, so that all that is behind it stands once; node 5 is D.
      let key = generics.table.add(kind::KEY, key, &[]);
      generics.table.add(kind::TUPLE, 0, &[key, 2 * 5])
    });
    let inner = [0, 1, 2].map(|id| generics.table.add(kind::PARAM, id, &[]));
    generics.table.add(kind::PARAM, 3, &[]);
    let needed = self.query(&mut generics.table, inner, tag);
    generics.impl_params.push(needed);
    if self.found > 0 {
      let last = generics.table.add(kind::ENUM, 0, &[]);
      let needed = self.query(&mut generics.table, [inner[0], inner[1], last], None);
      generics.impl_params.push(needed);
    }
    let mut impl_ =
      Impl { generics: sheet.generics.len() as u32, flags: flag::NAMED, ..Impl::default() };
    let mut outer = [0, 1, 2].map(|id| impl_.table.add(kind::PARAM, id, &[]));
    outer[2] = impl_.table.add(kind::STRUCT, self.round(), &[outer[2]]);
    let tag = impl_.table.add(kind::PARAM, 3, &[]);
    impl_.query = self.query(&mut impl_.table, outer, Some(tag));
    sheet.generics.push(generics);
    impl_
  }

  /// A candidate for the tower that is asked for, anything and any struct. All but its first node are those of a failing one.
  fn succeeding(&self, generics: u32) -> Impl {
    let mut impl_ = Impl { generics, flags: flag::NAMED, ..Impl::default() };
    let table = &mut impl_.table;
    let inner = 2 * (3 + self.dense / 2 * 2) as u32;
    let third = table.add(kind::STRUCT, self.round(), &[inner]);
    let second = table.add(0, 0, &[]);
    let last = table.add(kind::PARAM, 0, &[]);
    let first = tower(table, self.struct_id(), self.dense, last);
    table.add(0, 0, &[]);
    impl_.query = self.query(table, [first, second, third], None);
    impl_
  }

  /// A candidate that fails, with all nodes of its table.
  fn failing(&self, generics: u32, key: u32) -> Impl {
    let mut impl_ = self.failing_reached(generics, key);
    for _ in 0..self.unreached {
      impl_.table.add(kind::NEVER, 0, &[]);
    }
    impl_
  }

  /// A candidate that fails in its third argument, a Key of its own.
  fn failing_reached(&self, generics: u32, key: u32) -> Impl {
    let mut impl_ = Impl { generics, flags: flag::NAMED, ..Impl::default() };
    let table = &mut impl_.table;
    let fails = table.add(kind::KEY, key, &[]);
    let (first, second) = match self.meeting {
      Meeting::Nothing => (table.add(0, 0, &[]), table.add(0, 0, &[])),
      Meeting::Import => (fails, self.dense(table)),
      Meeting::Alike => (self.dense(table), table.add(0, 0, &[])),
      Meeting::Bottom
      | Meeting::Errors
      | Meeting::Bound
      | Meeting::Brought
      | Meeting::Mirrored
      | Meeting::Turned
      | Meeting::Unlike
      | Meeting::Opposed
      | Meeting::Chain
      | Meeting::Over
      | Meeting::Copies
      | Meeting::Brothers
      | Meeting::Deep
      | Meeting::Late
      | Meeting::Later
      | Meeting::Defaults
      | Meeting::Twice
      | Meeting::Hidden
      | Meeting::Bindings
      | Meeting::Within => {
        return self.failing_before(impl_, key as usize == self.branch + self.found);
      }
      Meeting::Unknowns => {
        let dense = table.add(0, 0, &[]);
        (dense, links(table, self.links, |table| [(); 7].map(|()| table.add(0, 0, &[]))))
      }
      Meeting::Inverse => {
        let dense = table.add(kind::PARAM, 0, &[]);
        (dense, links(table, self.links, |_| [dense + 1; 7]))
      }
    };
    impl_.query = self.query(table, [first, second, fails], None);
    impl_
  }

  /// A candidate that fails in its first two arguments, late; the first of them or another.
  fn failing_before(&self, mut impl_: Impl, first: bool) -> Impl {
    let table = &mut impl_.table;
    let [first, second] = match self.meeting {
      Meeting::Bottom | Meeting::Errors => {
        let errors = self.meeting == Meeting::Errors;
        let last = table.add(if errors { kind::ERROR } else { kind::KEY }, 0, &[]);
        [tower(table, self.struct_id(), self.dense, last), table.add(0, 0, &[])]
      }
      Meeting::Unlike => {
        let param = table.add(kind::PARAM, 0, &[]);
        [param, param + 1]
      }
      Meeting::Bound | Meeting::Brought => {
        if self.found > 0 {
          table.add(0, 0, &[]);
        }
        let last = table.add(kind::PARAM, 0, &[]);
        [tower(table, self.struct_id(), self.dense, last), last]
      }
      Meeting::Turned => {
        let inner = table.add(0, 0, &[]);
        [self.dense(table), table.add(kind::STRUCT, self.round() + 1, &[inner]) + 1]
      }
      Meeting::Mirrored => [self.dense(table), table.add(kind::ENUM, 0, &[]) + 1],
      Meeting::Opposed => {
        let opposed = table.add(0, 0, &[]);
        [self.dense(table), table.add(kind::TUPLE, 0, &[opposed, opposed + 1])]
      }
      Meeting::Defaults => {
        [self.dense(table) + u32::from(self.turned), table.add(kind::DEFAULT, 0, &[]) + 1]
      }
      Meeting::Bindings => {
        let dense = table.add(0, 0, &[]);
        let links = links(table, self.links, |table| [(); 7].map(|()| table.add(0, 0, &[])));
        let own = table.add(kind::DEFAULT, 0, &[]);
        [dense, table.add(kind::TUPLE, 0, &[links, own + 1])]
      }
      Meeting::Twice => {
        let own = table.add(kind::DEFAULT, 0, &[]);
        [self.dense(table), table.add(kind::TUPLE, 0, &[own + 1, own])]
      }
      Meeting::Hidden => {
        let param = table.add(kind::PARAM, 0, &[]);
        let tower = tower(table, self.struct_id(), self.dense, param);
        let within = table.add(0, 0, &[]);
        let round = table.add(kind::TUPLE, 0, &[within]);
        let cyclic = table.add(kind::TUPLE, 0, &[within, round]);
        // All have the same nodes, so that their records are the same.
        let ways = [
          [param, table.add(kind::TUPLE, 0, &[tower, cyclic])],
          [table.add(kind::TUPLE, 0, &[param]), table.add(kind::TUPLE, 0, &[tower, within])],
        ];
        ways[usize::from(!first)]
      }
      Meeting::Late | Meeting::Later => {
        let late = table.add(0, 0, &[]);
        [self.dense(table), table.add(kind::TUPLE, 0, &[late, late + 1, late])]
      }
      Meeting::Chain => {
        let last = table.add(kind::KEY, 0, &[]);
        [chain(table, self.dense, last), table.add(0, 0, &[])]
      }
      _ => {
        let first = match self.meeting {
          Meeting::Over | Meeting::Deep => {
            let last = table.add(kind::PARAM, 0, &[]);
            dense_over(table, self.struct_id(), self.dense, last)
          }
          Meeting::Copies => {
            let param = table.add(kind::PARAM, 0, &[]);
            links(table, self.links, |_| [param; 7])
          }
          Meeting::Brothers => self.copies(table),
          _ => self.dense(table),
        };
        if self.defaults {
          [first, table.add(kind::DEFAULT, 0, &[]) + 1]
        } else {
          let within = table.add(0, 0, &[]);
          let round = table.add(kind::TUPLE, 0, &[within]);
          [first, table.add(kind::TUPLE, 0, &[within, round])]
        }
      }
    };
    let third = table.add(0, 0, &[]);
    impl_.query = self.query(table, [first, second, third], None);
    impl_
  }

  /// The arguments that are asked for.
  fn asked(&self, table: &mut Table) -> Vec<u32> {
    let dense = match self.meeting {
      Meeting::Hidden => {
        let inner = table.add(kind::NEVER, 0, &[]);
        table.add(kind::TUPLE, 0, &[inner])
      }
      Meeting::Nothing | Meeting::Import | Meeting::Brought => table.add(kind::TUPLE, 0, &[]),
      Meeting::Bottom | Meeting::Bound | Meeting::Errors | Meeting::Unlike => {
        let last = match self.meeting {
          Meeting::Errors => kind::ERROR,
          Meeting::Unlike => kind::KEY,
          _ => kind::TUPLE,
        };
        let last = table.add(last, 0, &[]);
        tower(table, self.struct_id(), self.dense, last)
      }
      Meeting::Chain => {
        let last = table.add(kind::TUPLE, 0, &[]);
        chain(table, self.dense, last)
      }
      Meeting::Copies => self.copies(table),
      Meeting::Brothers => {
        let unknown = table.add(0, 0, &[]);
        links(table, self.links, |_| [unknown; 7])
      }
      Meeting::Deep => table.add(0, 0, &[]),
      _ => self.dense(table),
    };
    let met = match self.meeting {
      _ if self.defaults => table.add(kind::DEFAULT, 0, &[]),
      Meeting::Unknowns | Meeting::Inverse => links(table, self.links, |_| [dense; 7]),
      Meeting::Bindings => {
        let links = links(table, self.links, |_| [dense; 7]);
        let own = table.add(kind::DEFAULT, 0, &[]);
        table.add(kind::TUPLE, 0, &[links, own])
      }
      Meeting::Unlike => dense,
      Meeting::Bound => table.add(kind::NEVER, 0, &[]),
      Meeting::Mirrored => table.add(kind::ENUM, 0, &[]),
      Meeting::Turned => {
        let inner = table.add(kind::TUPLE, 0, &[]);
        table.add(kind::STRUCT, self.round() + 1, &[inner])
      }
      Meeting::Within
      | Meeting::Opposed
      | Meeting::Over
      | Meeting::Copies
      | Meeting::Brothers
      | Meeting::Deep => {
        let unknown = table.add(0, 0, &[]);
        table.add(kind::TUPLE, 0, &[unknown, unknown])
      }
      Meeting::Late | Meeting::Later => {
        let unknown = table.add(0, 0, &[]);
        let late = self.meeting == Meeting::Late;
        let known = table.add(if late { kind::NEVER } else { kind::TUPLE }, 0, &[]);
        table.add(kind::TUPLE, 0, &[unknown, unknown, known])
      }
      Meeting::Hidden => {
        let tower = tower(table, self.struct_id(), self.dense, dense);
        let unknown = table.add(0, 0, &[]);
        let pair = table.add(kind::TUPLE, 0, &[unknown, unknown]);
        table.add(kind::TUPLE, 0, &[tower, pair])
      }
      Meeting::Defaults => table.add(kind::DEFAULT, 0, &[]),
      Meeting::Twice => {
        let own = table.add(kind::DEFAULT, 0, &[]);
        table.add(kind::TUPLE, 0, &[own, own])
      }
      _ => table.add(kind::TUPLE, 0, &[]),
    };
    let leaf = table.add(kind::NEVER, 0, &[]);
    let nested =
      (0..self.levels).fold(leaf, |word, _| table.add(kind::STRUCT, self.round(), &[word]));
    let mut args = vec![dense, met, nested];
    if self.tagged {
      args.push(table.add(kind::NEVER, 0, &[]));
    }
    args
  }
}

impl Default for Search {
  /// A search that spends all steps, with candidates that meet nothing.
  fn default() -> Search {
    Search {
      flex: false,
      levels: 3,
      branch: 13,
      meeting: Meeting::Nothing,
      of_structs: false,
      dense: 1,
      links: 0,
      turned: false,
      defaults: false,
      params: false,
      tagged: false,
      found: 0,
      unreached: 0,
      generics: 0,
      structs: 0,
    }
  }
}

/// A search whose results are many and large, and come to nothing: each of 23 candidates asks three sub-questions of four
/// results each, one behind the other, and a last one that has none. The question has a type of so many nodes.
pub fn results(nodes: usize) -> Call {
  let mut sheet = bare(2, false);
  sheet.structs = vec![(0, 0)];
  sheet.traits.push(sheet.traits[0]);
  let mut asking = Generics { type_params: 2, ..Generics::default() };
  let inner = [0, 1].map(|id| asking.table.add(kind::PARAM, id, &[]));
  for trait_ in [1, 1, 1, 2] {
    asking.impl_params.push(Query { trait_, args: inner.to_vec() });
  }
  sheet.generics.push(asking);
  for place in 0..27 {
    let mut impl_ = Impl { generics: 1, flags: flag::NAMED, ..Impl::default() };
    let [a, b] = [0, 1].map(|id| impl_.table.add(kind::PARAM, id, &[]));
    let last = if place < 23 {
      impl_.table.add(kind::STRUCT, 0, &[b])
    } else {
      impl_.generics = 2;
      impl_.table.add(kind::NEVER, 0, &[])
    };
    impl_.query = query(&mut impl_.table, &[a, last], false);
    bind(&mut sheet, impl_);
  }
  sheet.generics.push(Generics { type_params: 2, ..Generics::default() });
  let mut table = Table::default();
  let first = dense(&mut table, None, nodes);
  let never = table.add(kind::NEVER, 0, &[]);
  let second = table.add(kind::STRUCT, 0, &[never]);
  call(&sheet, &table, &[first, second], 1, false)
}

/// A search by chance.
pub fn random(rng: &mut Rng) -> Search {
  use Meeting::*;
  let (levels, branch) = rng.pick(&[(2, 44), (3, 12), (3, 13), (4, 7), (5, 5), (6, 4), (10, 2)]);
  let meeting = rng.pick(&[
    Nothing, Import, Alike, Bottom, Errors, Bound, Mirrored, Within, Turned, Brought, Unknowns,
    Inverse, Unlike, Opposed, Chain, Over, Copies, Brothers, Deep, Late, Later, Defaults, Twice,
    Hidden, Bindings,
  ]);
  let of_structs = rng.chance(50);
  let filler = rng.range(0, 400);
  Search {
    flex: rng.chance(30),
    levels,
    branch,
    meeting,
    of_structs,
    dense: match meeting {
      Import | Deep => rng.range(1, 220),
      Copies => rng.range(1, 15),
      Brothers => rng.range(1, 32),
      _ => rng.range(1, 120),
    },
    links: match meeting {
      Unknowns | Bindings => rng.range(1, 14),
      Copies | Brothers => 1,
      _ => rng.range(1, 60),
    },
    turned: rng.chance(30),
    defaults: rng.chance(20),
    params: rng.chance(20),
    tagged: rng.chance(50),
    found: 0,
    unreached: if rng.chance(30) { rng.range(0, 300) } else { 0 },
    generics: if of_structs { 0 } else { filler },
    structs: if of_structs { filler } else { 0 },
  }
}
