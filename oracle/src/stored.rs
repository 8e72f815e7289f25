//! The stored list: cases with their answers, as lines for people and as words for a Rattle program. `stored/README.md`
//! says what each block is and how both forms are read.

use std::{fs, io, path::Path};

use crate::{
  answers::{Options, of_document, refused},
  case::{Asked, Case},
  checks::{check_call, check_list},
  damage,
  edges::{self, Edge},
  generate,
  model::MOST_NODES,
  sitting_stored,
  tally::{Tally, outcome},
  type_cases::{self, TypeCase},
  type_generate,
  type_run::Run,
  worker::Worker,
};

/// The seed of the generated blocks.
const SEED: u64 = 2026;
/// How many generated cases are looked at.
const MOST_TRIED: u64 = 200_000;
/// The most words of sheet and question together in a generated case.
const MOST_WORDS: usize = 100;
const MOST_LIST_WORDS: usize = 130;

/// How many generated cases of each outcome are kept, and of how many words at most.
const IMPL_QUOTA: [(&str, usize, usize); 10] = [
  ("ok", 310, MOST_WORDS),
  ("assert", 25, 140),
  ("no 14", 16, 260),
  ("no 15", 50, MOST_WORDS),
  ("no 16", 30, MOST_WORDS),
  ("no 17", 10, 220),
  ("no 18", 90, MOST_WORDS),
  ("no 19", 50, MOST_WORDS),
  ("no 20", 130, MOST_WORDS),
  ("no 21", 70, MOST_WORDS),
];
const FLEX_QUOTA: [(&str, usize, usize); 10] = [
  ("ok", 210, MOST_WORDS),
  ("assert", 25, 140),
  ("no 15", 25, 130),
  ("no 16", 4, 300),
  ("no 21", 40, MOST_WORDS),
  ("no 22", 10, MOST_WORDS),
  ("no 23", 10, MOST_WORDS),
  ("no 24", 50, MOST_WORDS),
  ("no 25", 65, MOST_WORDS),
  ("no 26", 60, 115),
];
const LIST_QUOTA: [(&str, usize, usize); 1] = [("list", 110, MOST_LIST_WORDS)];
const DAMAGED: u64 = 13 * 24;
/// How many cases of the type table there are.
const TYPE_CASES: u64 = 400;

struct Stored {
  case: Case,
  /// What document 01 gives.
  answer: String,
  /// Why, where the Rust has no say.
  why: Option<String>,
  /// What the Rust alone says, where that is something else, and the most nodes of a type table there.
  rust: Option<String>,
}

struct Block {
  name: &'static str,
  what: &'static str,
  stored: Vec<Stored>,
}

/// The Rust with document 01's limits, and the Rust alone.
struct Oracle {
  whole: Worker,
  alone: Worker,
  work: u32,
}

impl Oracle {
  fn new(options: &Options) -> Oracle {
    let whole = Worker::new(&Options { limits: true, ..options.clone() });
    let alone = Worker::new(&Options { limits: false, tell_most: true, ..options.clone() });
    Oracle { whole, alone, work: options.work }
  }

  fn stored(&mut self, case: Case, why: Option<String>) -> io::Result<Stored> {
    let answer = self.whole.answer(&case.to_string())?;
    let why = why.or_else(|| reason(&case, &answer, self.work));
    let rust = match is_limit(&answer) {
      true => Some(self.alone.answer(&case.to_string())?),
      false => None,
    };
    Ok(Stored { case, answer, why, rust })
  }
}

fn is_limit(answer: &str) -> bool {
  matches!(&outcome(answer)[..], "no 14" | "no 15" | "no 16" | "no 17")
}

/// Why document 01 gives a number that the Rust does not have.
fn reason(case: &Case, answer: &str, work: u32) -> Option<String> {
  if refused(case, work).is_some() {
    let refusal = match case {
      Case::List(sheet) => check_list(sheet),
      Case::Call(call) => check_call(call, work),
    };
    return refusal.err().map(|refusal| refusal.why);
  }
  let why = match &outcome(answer)[..] {
    "no 14" => "a type table would pass 256 nodes",
    "no 15" => "a question at depth 17",
    "no 16" => "a fifth result of one question or one tail",
    "no 17" => "the trees of one entry would pass 256 nodes",
    _ => return None,
  };
  Some(why.into())
}

/// Makes the list anew, in a directory.
pub fn make(directory: &Path, options: &Options) -> io::Result<()> {
  fs::create_dir_all(directory)?;
  for block in blocks(&mut Oracle::new(options), options)? {
    fs::write(directory.join(block.name).with_extension("txt"), to_text(&block))?;
    fs::write(directory.join(block.name).with_extension("bin"), to_bytes(&block.stored))?;
    println!("{:>8} {}", block.stored.len(), block.name);
  }
  make_types(directory)?;
  sitting_stored::make(directory, options)
}

/// The cases of the type table.
fn make_types(directory: &Path) -> io::Result<()> {
  let cases: Vec<TypeCase> = (0..TYPE_CASES).map(|n| type_generate::case(SEED, n)).collect();
  fs::write(directory.join("types.txt"), type_cases::to_text(&cases))?;
  fs::write(directory.join("types.bin"), type_cases::to_bytes(&cases))?;
  println!("{:>8} types", cases.len());
  Ok(())
}

/// Hand-built blocks: their name, what they hold, and their cases.
fn hand_built() -> [(&'static str, &'static str, Vec<Edge>); 5] {
  [
    ("pinned", "document 01's pinned cases, those marked as proved first", edges::pinned()),
    ("checks", "checks 1 to 13 at their edges, on both sides", edges::checks()),
    (
      "searches",
      "one search: modules, built-ins, meetings of types, the order of outcomes",
      edges::searches(),
    ),
    ("limits", "limits 14 to 17 and the step limit at their edges, on both sides", edges::limits()),
    ("large", "sizes at their limits, in sheets and questions of many words", edges::large()),
  ]
}

fn blocks(oracle: &mut Oracle, options: &Options) -> io::Result<Vec<Block>> {
  let mut blocks = Vec::new();
  for (name, what, edges) in hand_built() {
    let stored = edges.into_iter().map(|edge| oracle.stored(edge.case, Some(edge.why)));
    blocks.push(Block { name, what, stored: stored.collect::<io::Result<_>>()? });
  }
  let damaged = (0..DAMAGED).map(|index| oracle.stored(small_damaged(index, oracle.work), None));
  blocks.push(Block {
    name: "damaged",
    what: "generated calls, damaged so that each of 1 to 13 refuses them",
    stored: damaged.collect::<io::Result<_>>()?,
  });
  blocks.extend(generated(oracle, options)?);
  Ok(blocks)
}

/// A damaged case of few words.
fn small_damaged(index: u64, work: u32) -> Case {
  let number = index % 13;
  (0..)
    .map(|n| damage::case(SEED, 13 * (index / 13 * 1_000 + n) + number, work))
    .find(|case| words(case) <= MOST_WORDS)
    .unwrap()
}

fn words(case: &Case) -> usize {
  match case {
    Case::List(sheet) => sheet.len(),
    Case::Call(call) => call.sheet.len() + call.question.len(),
  }
}

/// Generated cases of few words, so many of each outcome.
fn generated(oracle: &mut Oracle, options: &Options) -> io::Result<Vec<Block>> {
  let mut blocks = [
    (Block { name: "impl", what: "generated impl calls", stored: Vec::new() }, IMPL_QUOTA.to_vec()),
    (Block { name: "flex", what: "generated flex calls", stored: Vec::new() }, FLEX_QUOTA.to_vec()),
    (Block { name: "list", what: "generated listings", stored: Vec::new() }, LIST_QUOTA.to_vec()),
  ];
  for index in 0..MOST_TRIED {
    let case = generate::case(SEED, index);
    let (block, quota) = match &case {
      Case::Call(call) if call.asked == Asked::Flex => &mut blocks[1],
      Case::Call(_) => &mut blocks[0],
      Case::List(_) => &mut blocks[2],
    };
    let given = outcome(&of_document(&case, options).to_string());
    let fits = |(kept, left, most): &&mut (&str, usize, usize)| {
      *kept == given && *left > 0 && words(&case) <= *most
    };
    if let Some((_, left, _)) = quota.iter_mut().find(fits) {
      let stored = oracle.stored(case, None)?;
      if stored.answer != "timeout" && stored.rust.as_deref() != Some("timeout") {
        *left -= 1;
        block.stored.push(stored);
      }
    }
  }
  for (block, quota) in &blocks {
    for (outcome, left, _) in quota.iter().filter(|(_, left, _)| *left > 0) {
      eprintln!("{}: {left} of {outcome} are missing", block.name);
    }
  }
  Ok(blocks.into_iter().map(|(block, _)| block).collect())
}

fn to_text(block: &Block) -> String {
  let mut text = format!("# {}\n", block.what);
  for Stored { case, answer, why, rust } in &block.stored {
    text += &format!("{case}\n= {answer}\n");
    text += &why.as_ref().map_or(String::new(), |why| format!("? {why}\n"));
    text += &rust.as_ref().map_or(String::new(), |rust| format!("! {rust}\n"));
  }
  text
}

fn from_text(text: &str) -> Result<Vec<Stored>, String> {
  let mut all: Vec<Stored> = Vec::new();
  for line in text.lines() {
    let last = all.last_mut().ok_or("a line before the first case");
    match line.split_at_checked(2) {
      Some(("# ", _)) => {}
      Some(("= ", answer)) => last?.answer = answer.into(),
      Some(("? ", why)) => last?.why = Some(why.into()),
      Some(("! ", rust)) => last?.rust = Some(rust.into()),
      _ => {
        all.push(Stored { case: Case::parse(line)?, answer: String::new(), why: None, rust: None })
      }
    }
  }
  Ok(all)
}

/// The number of cases, and then each case's words behind their number; all words little-endian.
fn to_bytes(all: &[Stored]) -> Vec<u8> {
  let mut words = vec![all.len() as u32];
  for stored in all {
    let case = case_words(stored);
    words.push(case.len() as u32);
    words.extend(case);
  }
  words.into_iter().flat_map(u32::to_le_bytes).collect()
}

fn case_words(stored: &Stored) -> Vec<u32> {
  let mut words = Vec::new();
  match &stored.case {
    Case::List(sheet) => {
      words.extend([2, 0, 0, 0, 0, 0, 0, sheet.len() as u32]);
      words.extend(sheet);
      words.push(0);
      let (number, listed) = list_words(&stored.answer);
      words.extend([number, 0, listed.len() as u32]);
      words.extend(listed);
    }
    Case::Call(call) => {
      let (form, basic) = match call.asked {
        Asked::Impl { basic } => (0, basic),
        Asked::Flex => (1, 0),
      };
      words.extend([form, call.source, call.generics, basic, call.count]);
      words.extend([call.answer_words, call.work_words, call.sheet.len() as u32]);
      words.extend(&call.sheet);
      words.push(call.question.len() as u32);
      words.extend(&call.question);
      let numbers: Vec<u32> =
        stored.answer.split_ascii_whitespace().skip(1).map(|word| word.parse().unwrap()).collect();
      if stored.answer.starts_with("no ") {
        words.extend([numbers[0], numbers[1], 0]);
      } else {
        words.extend([0, numbers[0], numbers.len() as u32 - 1]);
        words.extend(&numbers[1..]);
      }
    }
  }
  words
}

/// A listing as a refusal's number, or 0 and, for each definition, how many impls and which.
fn list_words(answer: &str) -> (u32, Vec<u32>) {
  if let Ok(number) = answer.parse() {
    return (number, Vec::new());
  }
  let mut words = Vec::new();
  for line in answer.split(';').filter(|line| !line.is_empty()) {
    let ids: Vec<u32> =
      line.split_ascii_whitespace().skip(1).map(|word| word.parse().unwrap()).collect();
    words.push(ids.len() as u32);
    words.extend(ids);
  }
  (0, words)
}

/// Compares the list in a directory with what is said today; gives how many cases there are of each outcome.
pub fn check(directory: &Path, options: &Options) -> Result<Tally, String> {
  let mut oracle = Oracle::new(options);
  let mut tally = Tally::default();
  for (name, _, edges) in hand_built() {
    let stored = read(directory, name)?;
    check_hand_built(name, &edges, &stored)?;
    check_stored(name, &mut oracle, &stored, &mut tally)?;
  }
  for name in ["damaged", "impl", "flex", "list"] {
    check_stored(name, &mut oracle, &read(directory, name)?, &mut tally)?;
  }
  check_types(directory, &mut tally)?;
  sitting_stored::check(directory, options, &mut tally)?;
  Ok(tally)
}

/// The stored cases of the type table are what the Rust gives for their steps, and their lines say the same.
fn check_types(directory: &Path, tally: &mut Tally) -> Result<(), String> {
  let open = |name: &str| fs::read(directory.join(name)).map_err(|e| format!("{name}: {e}"));
  let stored = type_cases::from_bytes(&open("types.bin")?).ok_or("types.bin holds other words")?;
  if type_cases::to_text(&stored).as_bytes() != open("types.txt")? {
    return Err("types: types.bin does not hold what types.txt holds".into());
  }
  for (n, case) in stored.iter().enumerate() {
    check_list(&case.sheet).map_err(|refusal| format!("types, case {n}: {}", refusal.why))?;
    let now = Run::again(case);
    if now != *case {
      return Err(format!("types, case {n}:\n{case}is stored, and this is said now:\n{now}"));
    }
    tally.add("types");
  }
  Ok(())
}

/// Reads a block's lines, and sees that its words are the same.
fn read(directory: &Path, name: &str) -> Result<Vec<Stored>, String> {
  let open = |extension: &str| {
    let path = directory.join(name).with_extension(extension);
    fs::read(&path).map_err(|e| format!("{}: {e}", path.display()))
  };
  let text = String::from_utf8(open("txt")?).map_err(|e| format!("{name}: {e}"))?;
  let stored = from_text(&text).map_err(|e| format!("{name}: {e}"))?;
  if to_bytes(&stored) != open("bin")? {
    return Err(format!("{name}: {name}.bin does not hold what {name}.txt holds"));
  }
  Ok(stored)
}

/// The stored cases are those built by hand, and their answers are the outcomes written beside them.
fn check_hand_built(name: &str, edges: &[Edge], stored: &[Stored]) -> Result<(), String> {
  if edges.len() != stored.len() {
    return Err(format!("{name}: {} cases stored of {}", stored.len(), edges.len()));
  }
  for (edge, stored) in edges.iter().zip(stored) {
    let holds = edge.case == stored.case && edge.outcome.holds_of(&stored.answer);
    if !holds {
      let (case, answer) = (&edge.case, &stored.answer);
      return Err(format!(
        "{name}, {}: {:?} is to hold of {answer}\n{case}",
        edge.why, edge.outcome
      ));
    }
  }
  Ok(())
}

fn check_stored(
  name: &str,
  oracle: &mut Oracle,
  all: &[Stored],
  tally: &mut Tally,
) -> Result<(), String> {
  for (n, stored) in all.iter().enumerate() {
    let now = oracle.stored(stored.case.clone(), None).map_err(|e| e.to_string())?;
    let same = (&now.answer, &now.rust) == (&stored.answer, &stored.rust);
    if !same {
      let (then, now) = ((&stored.answer, &stored.rust), (&now.answer, &now.rust));
      return Err(format!(
        "{name}, case {n}: {then:?} is stored, {now:?} is said now\n{}",
        stored.case
      ));
    }
    if outcome(&stored.answer) == "no 14" && most_types(stored) <= MOST_NODES {
      return Err(format!(
        "{name}, case {n}: no type table of the Rust passes 256\n{}",
        stored.case
      ));
    }
    tally.add(&stored.answer);
  }
  Ok(())
}

/// The most nodes that a type table had in the Rust's run.
fn most_types(stored: &Stored) -> usize {
  let told = stored.rust.as_ref().and_then(|rust| rust.rsplit_once("max=")?.1.parse().ok());
  told.unwrap_or(0)
}
