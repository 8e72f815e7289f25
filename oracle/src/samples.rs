//! Ours: what `ask` is to print for the samples, from the oracle's own answers.
//!
//! A sample is a directory with a sheet, a question, the arguments behind them and what is printed: `sheet`, `question`,
//! `arguments`, `expected`. The arguments of a sitting name the files of its questions.

use std::{fmt::Write, fs, path::Path};

use crate::{
  answers::{self, Options},
  case::{ANSWER_WORDS, Asked, Call, Case, WORK_WORDS},
  rust,
  sheet::chain,
  sittings::{self, Question, Sitting},
};

/// Writes what each sample is to print, or compares it; says how many there are.
pub fn each(directory: &Path, options: &Options, write: bool) -> Result<usize, String> {
  rust::quiet_panics();
  let told = |e: std::io::Error| format!("{}: {e}", directory.display());
  let mut samples = Vec::new();
  for entry in fs::read_dir(directory).map_err(told)? {
    let path = entry.map_err(told)?.path();
    if path.is_dir() {
      samples.push(path);
    }
  }
  samples.sort();
  for sample in &samples {
    let printed = printed(sample, options)?;
    let path = sample.join("expected");
    if write {
      fs::write(&path, printed).map_err(told)?;
    } else if fs::read_to_string(&path).map_err(told)? != printed {
      return Err(format!("{} is not what the oracle's answer gives:\n{printed}", path.display()));
    }
  }
  Ok(samples.len())
}

/// What `ask` is to print for a sample.
fn printed(sample: &Path, options: &Options) -> Result<String, String> {
  let read = |name: &str| {
    let path = sample.join(name);
    fs::read_to_string(&path).map_err(|e| format!("{}: {e}", path.display()))
  };
  let arguments = read("arguments")?;
  let mut arguments: Vec<&str> = arguments.split_ascii_whitespace().collect();
  let raw = arguments.pop_if(|last| *last == "raw").is_some();
  let options = Options { limits: true, ..options.clone() };
  if let ["sitting", source, generics, count, questions @ ..] = &arguments[..] {
    let sitting = Sitting {
      source: number(source)?,
      generics: number(generics)?,
      count: number(count)?,
      sheet: words(&read("sheet")?)?,
      questions: questions_of(questions, read)?,
    };
    return Ok(printed_in_turn(&sitting, raw, &options));
  }
  let asked = arguments.first().copied().unwrap_or_default();
  let numbers: Vec<u32> =
    arguments[1..].iter().map(|word| number(word)).collect::<Result<_, _>>()?;
  let (asked, count) = match (asked, &numbers[..]) {
    ("impl", &[_, _, basic, count]) => (Asked::Impl { basic }, count),
    ("flex", &[_, _, count]) => (Asked::Flex, count),
    _ => return Err(format!("{}: arguments?", sample.display())),
  };
  let call = Call {
    asked,
    source: numbers[0],
    generics: numbers[1],
    count,
    sheet: words(&read("sheet")?)?,
    question: words(&read("question")?)?,
    answer_words: ANSWER_WORDS,
    work_words: WORK_WORDS,
  };
  let line = answers::answer(&Case::Call(call.clone()), &options);
  Ok(rendered(&call, &line, raw))
}

fn number(word: &str) -> Result<u32, String> {
  word.parse().map_err(|_| format!("{word}?"))
}

/// The questions that the arguments of a sitting name: `impl QUESTION BASIC` or `flex QUESTION`, any number of them.
fn questions_of(
  mut arguments: &[&str],
  read: impl Fn(&str) -> Result<String, String>,
) -> Result<Vec<Question>, String> {
  let mut questions = Vec::new();
  while !arguments.is_empty() {
    let (asked, file, rest) = match arguments {
      ["impl", file, basic, rest @ ..] => (Asked::Impl { basic: number(basic)? }, file, rest),
      ["flex", file, rest @ ..] => (Asked::Flex, file, rest),
      _ => return Err(format!("{}?", arguments.join(" "))),
    };
    let words = words(&read(file)?)?;
    questions.push(Question { asked, words, answer_words: ANSWER_WORDS, work_words: WORK_WORDS });
    arguments = rest;
  }
  Ok(questions)
}

/// What is printed for a sitting: each question's number, what its call gives, and the steps spent so far.
fn printed_in_turn(sitting: &Sitting, raw: bool, options: &Options) -> String {
  let mut out = String::new();
  let mut count = sitting.count;
  let answers = sittings::answers(sitting, options);
  for (n, (question, line)) in sitting.questions.iter().zip(answers).enumerate() {
    out += &format!("question {}\n", n + 1);
    out += &rendered(&sitting.call(question, count), &line, raw);
    count = count_of(&line);
    out += &format!("spent: {count}\n");
  }
  out
}

/// The count of an answer line.
fn count_of(line: &str) -> u32 {
  let place = if line.starts_with("no ") { 2 } else { 1 };
  line.split(' ').nth(place).and_then(|word| word.parse().ok()).expect("an answer")
}

/// Decimal words; `|` stands between words, and `#` begins a comment.
fn words(text: &str) -> Result<Vec<u32>, String> {
  let uncommented = text.lines().map(|line| line.split('#').next().unwrap());
  let parts = uncommented.flat_map(|line| line.split([' ', '\t', '|']));
  parts.filter(|part| !part.is_empty()).map(|part| part.parse().map_err(|_| part.into())).collect()
}

/// What is printed for an answer line.
fn rendered(call: &Call, line: &str, raw: bool) -> String {
  let mut fields = line.split(' ');
  let form = fields.next().unwrap_or_default();
  let mut numbers = fields.map(|field| field.parse::<u32>().expect("an answer"));
  let mut out = String::new();
  if form == "no" {
    let (number, count) = (numbers.next().unwrap(), numbers.next().unwrap());
    writeln!(out, "refused {number}: {}", meaning(number)).unwrap();
    writeln!(out, "steps: {} (count {count})", count - call.count).unwrap();
    return out;
  }
  let count = numbers.next().unwrap();
  let answer: Vec<u32> = numbers.collect();
  writeln!(out, "answered\nsteps: {} (count {count})", count - call.count).unwrap();
  if call.asked == Asked::Flex {
    tree(&mut out, "fork", &answer, answer[0]);
    tree(&mut out, "drop", &answer, answer[1]);
    let yes = |word| if word == 1 { "yes" } else { "no" };
    writeln!(out, "inverted: {}\nself-inverse: {}", yes(answer[4]), yes(answer[5])).unwrap();
  } else {
    tree(&mut out, "tree", &answer, answer[0]);
  }
  let nodes = chain(&call.question, call.question[0]).len();
  out += if nodes == 0 { "types: none\n" } else { "types:\n" };
  for (node, word) in answer[answer.len() - nodes..].iter().enumerate() {
    writeln!(out, "  {node}: {}", type_text(&answer, *word)).unwrap();
  }
  if raw {
    writeln!(out, "words: {}", answer.iter().map(u32::to_string).collect::<Vec<_>>().join(" "))
      .unwrap();
  }
  out
}

fn tree(out: &mut String, name: &str, answer: &[u32], head: u32) {
  if head == 0 {
    return writeln!(out, "{name}: none").unwrap();
  }
  writeln!(out, "{name}:").unwrap();
  tree_lines(out, answer, head, 1);
}

fn tree_lines(out: &mut String, answer: &[u32], head: u32, level: usize) {
  for place in chain(answer, head) {
    let (kind, id, child) = (answer[place + 1], answer[place + 2], answer[place + 3]);
    let name = match kind {
      1 => format!("parameter {id}"),
      2 => format!("impl {id}"),
      3 => format!("closure {id} fork"),
      _ => format!("closure {id} drop"),
    };
    writeln!(out, "{:1$}{name}", "", 2 * level).unwrap();
    tree_lines(out, answer, child, level + 1);
  }
}

fn type_text(answer: &[u32], word: u32) -> String {
  let place = chain(answer, answer[2])[word as usize / 2];
  let (kind, inverted, id) = (answer[place + 1], answer[place + 2], answer[place + 3]);
  let inner = chain(answer, answer[place + 4]);
  let inner: Vec<String> = inner.iter().map(|&cell| type_text(answer, answer[cell + 1])).collect();
  let children = inner.join(", ");
  let named = |name: &str| match inner.len() {
    0 => format!("{name} {id}"),
    _ => format!("{name} {id}[{children}]"),
  };
  let text = match kind {
    0 => format!("?{}", word / 2),
    1 => named("Param"),
    2 => format!("({children})"),
    3 => named("Opaque"),
    4 => named("Struct"),
    5 => named("Enum"),
    6 => named("Union"),
    7 => named("Fn"),
    8 => named("Closure"),
    9 => format!("&{children}"),
    10 => named("Key"),
    11 => "!".into(),
    12 => "Default".into(),
    _ => "Error".into(),
  };
  if (word ^ inverted) & 1 == 1 { format!("~{text}") } else { text }
}

/// Document 01's table of refusals, in one line each.
fn meaning(number: u32) -> &'static str {
  match number {
    1 => "the sheet has under 16 or over 4,096 words",
    2 => "the question has under 3 or over 1,024 words",
    3 => "the answer buffer has under 10,240 words",
    4 => "the workspace has under 662,794 words",
    5 => "the start count is over 1,000,000",
    6 => "the sheet's edition is not 1",
    7 => "a head or next of the sheet breaks the chain rule, or a record passes its end",
    8 => "a value of the sheet is out of range or over a limit",
    9 => "a type of the sheet reaches itself",
    10 => "the source or the generics are absent, or the basic flag is over 1",
    11 => "a head or next of the question breaks the chain rule, or a record passes its end",
    12 => "a value of the question is out of range or over a limit",
    13 => "a type of the question reaches itself",
    14 => "a type table would pass 256 nodes",
    15 => "a question is nested deeper than 16",
    16 => "the results of one question, or of one tail of sub-questions, would pass 4",
    17 => "the trees of one result would pass 256 nodes",
    18 => "the search passed 2,000 steps, or an inherent argument is unknown (SearchLimit)",
    19 => "an Error type stands where a module is sought",
    20 => "no impl is found (CannotFindImpl)",
    21 => "two or more impls are found (AmbiguousImpl)",
    22 => "the sheet sets no Fork",
    23 => "the sheet sets no Drop",
    24 => "the searches passed 2,000 steps (FlexSearchLimit)",
    25 => "the type and its inverse are both flexible (BiFlexible)",
    26 => "fork and drop want types that do not agree (IncompatibleForkDropInference)",
    _ => "no number of document 01",
  }
}
