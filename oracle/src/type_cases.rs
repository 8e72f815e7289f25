//! Cases of the type table: a sheet, and steps on two tables, each with what the Rust gave for it. `stored/README.md` says
//! how they are read.

use std::fmt::{self, Display};

/// What is done to one of the two tables. Types are type words.
#[derive(Debug, Clone, PartialEq, Eq)]
pub enum Step {
  /// Adds an unknown.
  Unknown,
  /// Adds a type of a kind.
  Known {
    kind: u32,
    inverted: u32,
    id: u32,
    children: Vec<u32>,
  },
  Unify {
    a: u32,
    b: u32,
  },
  Occurs {
    var: u32,
    ty: u32,
  },
  SelfInverse {
    ty: u32,
  },
  GetMod {
    ty: u32,
  },
  /// Joins two of trait? and arguments.
  UnifyImplType {
    a: u32,
    xs: Vec<u32>,
    b: u32,
    ys: Vec<u32>,
  },
  /// Moves types of this table to the other.
  Import {
    params: Option<Vec<u32>>,
    types: Vec<u32>,
  },
  /// Makes the other table anew, of types of this one.
  Export {
    types: Vec<u32>,
  },
  /// Tells all nodes.
  Nodes,
}

/// A step, the table that it is done to (0 or 1), and what the Rust gave: a number, a verdict, or what the step has more.
#[derive(Debug, Clone, PartialEq, Eq)]
pub struct Done {
  pub table: u32,
  pub step: Step,
  pub given: Vec<u32>,
}

#[derive(Debug, Clone, PartialEq, Eq)]
pub struct TypeCase {
  pub sheet: Vec<u32>,
  pub steps: Vec<Done>,
}

impl Step {
  fn name(&self) -> &'static str {
    ["unknown", "known", "unify", "occurs", "self_inverse", "get_mod"]
      .into_iter()
      .chain(["unify_impl_type", "import", "export", "nodes"])
      .nth(self.number() as usize)
      .unwrap()
  }

  pub fn number(&self) -> u32 {
    match self {
      Step::Unknown => 0,
      Step::Known { .. } => 1,
      Step::Unify { .. } => 2,
      Step::Occurs { .. } => 3,
      Step::SelfInverse { .. } => 4,
      Step::GetMod { .. } => 5,
      Step::UnifyImplType { .. } => 6,
      Step::Import { .. } => 7,
      Step::Export { .. } => 8,
      Step::Nodes => 9,
    }
  }

  /// The words that say what is to be done.
  fn words(&self) -> Vec<u32> {
    let count = |types: &[u32]| types.len() as u32;
    match self {
      Step::Unknown | Step::Nodes => vec![],
      Step::Known { kind, inverted, id, children } => {
        [&[*kind, *inverted, *id, count(children)], &children[..]].concat()
      }
      Step::Unify { a, b } => vec![*a, *b],
      Step::Occurs { var, ty } => vec![*var, *ty],
      Step::SelfInverse { ty } | Step::GetMod { ty } => vec![*ty],
      Step::UnifyImplType { a, xs, b, ys } => {
        [&[*a, *b, count(xs), count(ys)], &xs[..], ys].concat()
      }
      Step::Import { params, types } => {
        let with = u32::from(params.is_some());
        let params = params.as_deref().unwrap_or_default();
        [&[with, count(params), count(types)], params, types].concat()
      }
      Step::Export { types } => [&[count(types)], &types[..]].concat(),
    }
  }

  fn from_words(number: u32, words: &mut Reader<'_>) -> Option<Step> {
    Some(match number {
      0 => Step::Unknown,
      1 => {
        let [kind, inverted, id] = [words.word()?, words.word()?, words.word()?];
        Step::Known { kind, inverted, id, children: words.counted()? }
      }
      2 => Step::Unify { a: words.word()?, b: words.word()? },
      3 => Step::Occurs { var: words.word()?, ty: words.word()? },
      4 => Step::SelfInverse { ty: words.word()? },
      5 => Step::GetMod { ty: words.word()? },
      6 => {
        let [a, b, n, m] = [words.word()?, words.word()?, words.word()?, words.word()?];
        Step::UnifyImplType { a, xs: words.words(n)?, b, ys: words.words(m)? }
      }
      7 => {
        let [with, n, m] = [words.word()?, words.word()?, words.word()?];
        let params = words.words(n)?;
        Step::Import { params: (with == 1).then_some(params), types: words.words(m)? }
      }
      8 => Step::Export { types: words.counted()? },
      9 => Step::Nodes,
      _ => return None,
    })
  }
}

/// Reads words one after the other.
struct Reader<'a>(&'a [u32]);

impl Reader<'_> {
  fn word(&mut self) -> Option<u32> {
    let (&word, rest) = self.0.split_first()?;
    self.0 = rest;
    Some(word)
  }

  fn words(&mut self, count: u32) -> Option<Vec<u32>> {
    let (words, rest) = self.0.split_at_checked(count as usize)?;
    self.0 = rest;
    Some(words.to_vec())
  }

  /// As many words as the next word says.
  fn counted(&mut self) -> Option<Vec<u32>> {
    let count = self.word()?;
    self.words(count)
  }
}

impl TypeCase {
  /// The sheet's length and words, the number of steps, and each step behind the number of its words.
  fn words(&self) -> Vec<u32> {
    let mut words = vec![self.sheet.len() as u32];
    words.extend(&self.sheet);
    words.push(self.steps.len() as u32);
    for Done { table, step, given } in &self.steps {
      let step_words = [vec![step.number(), *table], step.words(), given.clone()].concat();
      words.push(step_words.len() as u32);
      words.extend(step_words);
    }
    words
  }

  fn from_words(words: &[u32]) -> Option<TypeCase> {
    let mut words = Reader(words);
    let mut case = TypeCase { sheet: words.counted()?, steps: Vec::new() };
    for _ in 0..words.word()? {
      let step_words = words.counted()?;
      let mut step_words = Reader(&step_words);
      let [number, table] = [step_words.word()?, step_words.word()?];
      let step = Step::from_words(number, &mut step_words)?;
      case.steps.push(Done { table, step, given: step_words.0.to_vec() });
    }
    words.0.is_empty().then_some(case)
  }
}

/// The number of cases, and then each case's words behind their number; all words little-endian.
pub fn to_bytes(cases: &[TypeCase]) -> Vec<u8> {
  let mut words = vec![cases.len() as u32];
  for case in cases {
    let case = case.words();
    words.push(case.len() as u32);
    words.extend(case);
  }
  words.into_iter().flat_map(u32::to_le_bytes).collect()
}

pub fn from_bytes(bytes: &[u8]) -> Option<Vec<TypeCase>> {
  let words: Vec<u32> = bytes
    .chunks(4)
    .map(|word| word.try_into().map(u32::from_le_bytes))
    .collect::<Result<_, _>>()
    .ok()?;
  let mut words = Reader(&words);
  let count = words.word()?;
  let cases = (0..count).map(|_| TypeCase::from_words(&words.counted()?)).collect::<Option<_>>()?;
  words.0.is_empty().then_some(cases)
}

fn joined(words: &[u32]) -> String {
  words.iter().map(|word| format!(" {word}")).collect()
}

/// The sheet, and a line for each step: its name, its table, its words, and behind `=` what was given.
impl Display for TypeCase {
  fn fmt(&self, f: &mut fmt::Formatter<'_>) -> fmt::Result {
    writeln!(f, "types {}{}", self.sheet.len(), joined(&self.sheet))?;
    for Done { table, step, given } in &self.steps {
      writeln!(f, "{} {table}{} ={}", step.name(), joined(&step.words()), joined(given))?;
    }
    Ok(())
  }
}

pub fn to_text(cases: &[TypeCase]) -> String {
  let lines: String = cases.iter().map(TypeCase::to_string).collect();
  format!("# steps on two type tables, and what the Rust gives for each\n{lines}")
}
