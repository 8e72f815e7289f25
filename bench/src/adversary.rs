//! Inputs that are as slow as can be made within document 01's sizes, for each part of a call.

use oracle::{
  case::{ANSWER_WORDS, Asked, Call, WORK_WORDS},
  draft::{
    Binding, Definition, Generics, Impl, Query, Sheet, Table, Trait, flex_question, impl_question,
  },
  layout::Style,
  rng::Rng,
  sheet::kind,
};

pub mod joins;
pub mod search;
pub mod sheets;

use joins::{Join, Place, Shape};
use search::{Meeting, Search};
use sheets::{Charts, Ending};

/// Equal records with equal tails stand once, so that as much as can be has room.
const TIGHT: Style = Style { share: true, overlap: false, shuffle: false, gaps: 0 };
const SHEET_WORDS: usize = 4_096;
const QUESTION_WORDS: usize = 1_024;
const IMPLS: usize = 128;
const DEFINITIONS: usize = 128;

/// An input, what it is, and which part of a call it is to slow down.
pub struct Worst {
  pub part: &'static str,
  pub name: String,
  pub call: Call,
}

/// A call of source 0 and generics 0 on a sheet for the arguments of a trait?; in a flex call, for enum 0 of them, whose
/// inverse nothing meets.
fn call(sheet: &Sheet, table: &Table, args: &[u32], trait_: u32, flex: bool) -> Call {
  let rng = &mut Rng::new(0);
  let mut table = table.clone();
  let question = if flex {
    let word = table.add(kind::ENUM, 0, args);
    flex_question(&table, word, TIGHT, rng)
  } else {
    let query = Query { trait_, args: args.to_vec() };
    impl_question(&table, &query, TIGHT, rng)
  };
  Call {
    asked: if flex { Asked::Flex } else { Asked::Impl { basic: 0 } },
    source: 0,
    generics: 0,
    count: 0,
    sheet: sheet.words(TIGHT, rng),
    question,
    answer_words: ANSWER_WORDS,
    work_words: WORK_WORDS,
  }
}

/// Whether a call is within the sizes of document 01, so that its checks are not cut short.
pub fn fits(call: &Call) -> bool {
  call.sheet.len() <= SHEET_WORDS && call.question.len() <= QUESTION_WORDS
}

/// A sheet with one definition, and trait 0 of so many arguments, or of enum 0 of them, which is Fork and Drop then.
fn bare(arity: usize, flex: bool) -> Sheet {
  let arity = if flex { 1 } else { arity as u32 };
  Sheet {
    definitions: vec![Definition::default()],
    generics: vec![Generics::default()],
    traits: vec![Trait { definition: 0, arity, inherent: 0 }],
    enums: vec![0],
    fork: u32::from(flex),
    drop: u32::from(flex),
    ..Sheet::default()
  }
}

/// A query of trait 0 for some types, or for enum 0 of them.
fn query(table: &mut Table, args: &[u32], flex: bool) -> Query {
  let args = if flex { vec![table.add(kind::ENUM, 0, args)] } else { args.to_vec() };
  Query { trait_: 1, args }
}

fn bind(sheet: &mut Sheet, impl_: Impl) {
  sheet.definitions[0].bindings.push(Binding { vis: 0, impl_: sheet.impls.len() as u32 });
  sheet.impls.push(impl_);
}

/// A Tuple, or the struct of an id.
fn node(table: &mut Table, id: Option<u32>, children: &[u32]) -> u32 {
  match id {
    None => table.add(kind::TUPLE, 0, children),
    Some(id) => table.add(kind::STRUCT, id, children),
  }
}

/// So many nodes of eight children: the node below, and seven times the last one.
fn dense(table: &mut Table, id: Option<u32>, nodes: usize) -> u32 {
  let last = node(table, id, &[]);
  dense_over(table, id, nodes, last)
}

/// The same over another last one.
fn dense_over(table: &mut Table, id: Option<u32>, nodes: usize, last: u32) -> u32 {
  let mut children = [last; 8];
  for _ in 1..nodes {
    children[0] = node(table, id, &children);
  }
  children[0]
}

/// So many nodes of eight children, the node below and seven times one without children, over a last one.
fn chain(table: &mut Table, nodes: usize, last: u32) -> u32 {
  let leaf = table.add(kind::NEVER, 0, &[]);
  let mut children = [leaf; 8];
  children[0] = last;
  for _ in 1..nodes {
    children[0] = node(table, None, &children);
  }
  children[0]
}

/// So many nodes over a last one, two to a level, of eight and of seven children: those below, in turn.
fn tower(table: &mut Table, id: Option<u32>, nodes: usize, last: u32) -> u32 {
  let mut level = [last; 2];
  for _ in 0..nodes / 2 {
    let [a, b] = level;
    let children = [a, b, a, b, a, b, a, b];
    level = [&children[..], &children[1..]].map(|children| node(table, id, children));
  }
  level[0]
}

/// So many Tuples, each of seven types and the Tuple before it.
fn links(table: &mut Table, count: usize, mut seven: impl FnMut(&mut Table) -> [u32; 7]) -> u32 {
  let mut word = table.add(kind::TUPLE, 0, &[]);
  for _ in 0..count {
    let [a, b, c, d, e, f, g] = seven(table);
    word = table.add(kind::TUPLE, 0, &[word, a, b, c, d, e, f, g]);
  }
  word
}

/// The inputs that are timed, each for a part of a call. Joins have at most so many levels.
pub fn all(levels: usize) -> Vec<Worst> {
  let mut all = checks_and_sets();
  all.extend(joins(levels));
  all.extend(searches());
  all
}

fn checks_and_sets() -> Vec<Worst> {
  let charts = Charts {
    definitions: DEFINITIONS,
    children: DEFINITIONS,
    imports: 0,
    bindings: 380,
    impls: IMPLS,
    closed: false,
  };
  let worst = |part, name: &str, call| Worst { part, name: name.into(), call };
  vec![
    worst(
      "checks",
      "500 generics with a table of 400 nodes",
      sheets::tables(500, 400, 140, Ending::Passed),
    ),
    worst("checks", "the same, refused 9", sheets::tables(500, 400, 140, Ending::Sheet)),
    worst("checks", "the same, refused 13", sheets::tables(500, 400, 135, Ending::Question)),
    worst("candidate sets", "128 definitions that share all chains", charts.call()),
    worst("candidate sets", "the same, no edge open", Charts { closed: true, ..charts }.call()),
  ]
}

fn joins(levels: usize) -> Vec<Worst> {
  use Shape::*;
  let places = [
    (Place::Search, "join in the search"),
    (Place::ImplClosing, "closing join, impl"),
    (Place::FlexClosing, "closing join, flex"),
    (Place::ForkDrop, "fork with drop"),
  ];
  let shapes =
    [Times(2), Times(8), Fibonacci, FibonacciBack, Inverted, Unknowns, UnknownBetween, Skew];
  let mut all = Vec::new();
  for (place, part) in places {
    for (shape, error) in shapes.iter().flat_map(|&shape| [(shape, false), (shape, true)]) {
      let join = joins::fitted(Join { place, shape, levels, error });
      let bottom = if error { "Error" } else { "no match" };
      let name = format!("{shape:?}, {} levels, {bottom}", join.levels);
      all.push(Worst { part, name, call: join.call() });
    }
  }
  for (part, nodes, flex) in [("closing join, impl", 127, false), ("closing join, flex", 84, true)]
  {
    let name = format!("{nodes} nodes meet their copies");
    all.push(Worst { part, name, call: joins::copied(nodes, flex) });
  }
  let (links, levels) = (30.min(3 * levels), 75.min(levels));
  let name = format!("{links} joins between towers of {levels}");
  all.push(Worst { part: "fork with drop", name, call: joins::restless(links, levels) });
  let (links, levels) = (20.min(links), 45.min(levels));
  let name = format!("the same, {links} and {levels}, with self-dual structs");
  all.push(Worst { part: "fork with drop", name, call: joins::mirrored(links, levels, 40, 500) });
  all
}

/// Searches that spend all steps, by what their failing candidates meet.
fn meetings() -> Vec<(&'static str, Search)> {
  use Meeting::*;
  let base = Search::default();
  vec![
    ("candidates of few words", Search { meeting: Nothing, ..base }),
    (
      "candidates with generics far down their chain",
      Search { meeting: Nothing, generics: 500, ..base },
    ),
    ("candidates with tables of 220 nodes", Search { meeting: Import, dense: 220, ..base }),
    ("types of 110 nodes alike", Search { meeting: Alike, dense: 110, ..base }),
    ("towers of 72 nodes that differ at the bottom", Search { meeting: Bottom, dense: 72, ..base }),
    ("the same over Errors", Search { meeting: Errors, dense: 72, ..base }),
    ("the same, an unknown at the bottom bound late", Search { meeting: Bound, dense: 72, ..base }),
    (
      "types of 110 nodes alike, and one inverted",
      Search { meeting: Mirrored, dense: 110, ..base },
    ),
    ("types of 110 nodes alike, and one in itself", Search { meeting: Within, dense: 110, ..base }),
    (
      "a type of 72 nodes that is not its own inverse",
      Search { meeting: Unlike, dense: 72, ..base },
    ),
    (
      "chains of 110 nodes that differ at their ends",
      Search { meeting: Chain, dense: 110, ..base },
    ),
    (
      "types of 105 nodes over a parameter, and one in itself",
      Search { meeting: Over, dense: 105, ..base },
    ),
    (
      "seven copies of 14 nodes meet, and one in itself",
      Search { meeting: Copies, dense: 14, links: 1, ..base },
    ),
    (
      "seven copies of 31 nodes of the signature meet",
      Search { meeting: Brothers, dense: 31, links: 1, ..base },
    ),
    (
      "an unknown is bound to a type of 220 nodes, and one in itself",
      Search { meeting: Deep, dense: 220, ..base },
    ),
    (
      "types of 110 nodes alike, and an unknown opposed",
      Search { meeting: Opposed, dense: 110, ..base },
    ),
    (
      "types of 110 nodes alike, and an unknown opposed, then bound",
      Search { meeting: Late, dense: 110, ..base },
    ),
    ("the same, bound to its own inverse", Search { meeting: Later, dense: 110, ..base }),
    (
      "types of 110 nodes alike, and Defaults inverted",
      Search { meeting: Defaults, dense: 110, ..base },
    ),
    (
      "the same, where they have to be the same then",
      Search { meeting: Twice, dense: 110, ..base },
    ),
    (
      "towers of 72 nodes that differ but for a first candidate",
      Search { meeting: Hidden, dense: 72, ..base },
    ),
    (
      "types of 110 nodes alike, and a struct inverted",
      Search { meeting: Turned, dense: 110, ..base },
    ),
    ("towers of 110 nodes brought from the sheet", Search { meeting: Brought, dense: 110, ..base }),
    (
      "the same of 60 nodes, with four that are found",
      Search { meeting: Brought, dense: 60, found: 4, ..base },
    ),
    ("few of 300 nodes reached", Search { meeting: Nothing, unreached: 300, ..base }),
    (
      "towers of 72 of 200 nodes that differ at the bottom",
      Search { meeting: Bottom, dense: 72, unreached: 128, ..base },
    ),
    (
      "84 unknowns meet a type of 110 nodes",
      Search { meeting: Unknowns, dense: 110, links: 12, ..base },
    ),
    (
      "the same in impl parameters of the generics",
      Search { meeting: Unknowns, dense: 110, links: 12, params: true, ..base },
    ),
    (
      "a type of 90 Tuples meets its inverse, 315 times",
      Search { meeting: Inverse, dense: 90, links: 45, ..base },
    ),
    (
      "a type of 90 structs meets its inverse, 315 times",
      Search { meeting: Inverse, of_structs: true, dense: 90, links: 45, structs: 560, ..base },
    ),
  ]
}

/// The slowest search known that the gate runs: candidates that fail in the rule's own order alone, and are slow to open.
fn slowest() -> (&'static str, Search) {
  let name = "84 unknowns meet a type of 100 nodes, and Defaults inverted";
  (name, Search { meeting: Meeting::Bindings, dense: 100, links: 12, ..Search::default() })
}

/// Others whose candidates fail in the rule's own order alone, after many types have met.
fn in_order() -> Vec<(&'static str, Search)> {
  use Meeting::{Brothers, Copies, Defaults, Over};
  let base = Search { defaults: true, ..Search::default() };
  let turned = Search { meeting: Defaults, dense: 110, turned: true, ..base };
  vec![
    (
      "types of 105 nodes over a parameter, and Defaults inverted",
      Search { meeting: Over, dense: 105, ..base },
    ),
    (
      "seven copies of 14 nodes, and Defaults inverted",
      Search { meeting: Copies, dense: 14, links: 1, ..base },
    ),
    (
      "seven copies of 31 nodes brought, and Defaults inverted",
      Search { meeting: Brothers, dense: 31, links: 1, ..base },
    ),
    ("a type of 110 nodes inverted, and Defaults inverted", turned),
    (
      "the same of structs, 380 others before them",
      Search { of_structs: true, structs: 380, ..turned },
    ),
  ]
}

/// The searches of impl calls that spend all steps, every question another, and whether the first test before a candidate is opened finds what
/// fails in them; in the others the rule is followed in its own order, which takes longer.
pub fn impl_searches() -> Vec<(Worst, bool)> {
  let worst = |(name, search): (&str, Search)| {
    let call = Search { tagged: true, ..search }.call();
    (Worst { part: "search, impl", name: name.into(), call }, search.is_found())
  };
  meetings().into_iter().chain([slowest()]).map(worst).collect()
}

/// Results, and searches that spend all steps, by part.
pub fn searches() -> Vec<Worst> {
  let name = "four to each of three sub-questions".into();
  let mut all = vec![Worst { part: "results", name, call: search::results(130) }];
  let steps = Search::default().levels;
  for (part, flex, levels, tagged) in [
    ("one question", false, 0, false),
    ("search, impl", false, steps, true),
    ("search, flex", true, steps, true),
    ("search, the same", false, steps, false),
  ] {
    for (name, search) in meetings().into_iter().chain([slowest()]).chain(in_order()) {
      // The enum round the arguments takes nodes too: eight fewer have room.
      let dense = if flex { search.dense.saturating_sub(8).max(1) } else { search.dense };
      let call = Search { flex, levels, tagged, dense, ..search }.call();
      all.push(Worst { part, name: name.into(), call });
    }
  }
  all
}

/// An input by chance.
pub fn random(rng: &mut Rng, levels: usize) -> Worst {
  let (part, name, call) = match rng.below(4) {
    0 => {
      let charts = sheets::random(rng);
      ("candidate sets", format!("{charts:?}"), charts.call())
    }
    1 => {
      let (generics, nodes) = (rng.range(1, 900), rng.range(1, 500));
      let name = format!("{generics} generics with a table of {nodes} nodes");
      ("checks", name, sheets::tables(generics, nodes, rng.range(1, 140), Ending::Passed))
    }
    2 if rng.chance(30) => {
      let (links, levels) = (rng.range(1, 40), rng.range(1, levels));
      let (nodes, structs) = (rng.range(1, 60), rng.range(0, 600));
      let name = format!("mirrored, {links} links, {levels} levels, {nodes} of {structs} structs");
      ("joins", name, joins::mirrored(links, levels, nodes, structs))
    }
    2 => {
      let join = joins::random(rng, levels);
      ("joins", format!("{join:?}"), join.call())
    }
    _ => {
      let search = search::random(rng);
      ("search", format!("{search:?}"), search.call())
    }
  };
  Worst { part, name, call }
}

#[cfg(test)]
mod tests {
  use oracle::{
    answers::{self, Options},
    case::{Answer, Case},
  };

  use super::*;

  /// Every input is within the sizes, and none but those that are meant to be is refused by a check.
  #[test]
  fn all_pass_the_checks() {
    for levels in [5, 16, 60, 120] {
      for Worst { part, name, call } in all(levels) {
        assert!(fits(&call), "{part}, {name}: {} and {}", call.sheet.len(), call.question.len());
        let refused = answers::refused(&Case::Call(call), Options::default().work);
        let number = match refused {
          None => 0,
          Some(Answer::No(number, _)) => number,
          Some(_) => unreachable!("the answer to a call"),
        };
        let meant = name.rsplit_once("refused ").map_or(0, |(_, number)| number.parse().unwrap());
        assert_eq!(number, meant, "{part}, {name}");
      }
    }
  }
}
