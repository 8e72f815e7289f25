//! Case lines and answer lines.
//!
//! `impl SOURCE GENERICS BASIC COUNT NS s.. NQ q..`, `flex SOURCE GENERICS COUNT NS s.. NQ q..`, `list NS s..`; `call`,
//! then the lengths of answer buffer and workspace, before an impl or flex line.

use std::fmt::{self, Display};

/// The least length of an answer buffer.
pub const ANSWER_WORDS: u32 = 10_240;
/// The most that document 01 lets the workspace's constant be: lent where a case says nothing of it.
pub const WORK_WORDS: u32 = 2_097_152;

#[derive(Debug, Clone, PartialEq, Eq)]
pub enum Case {
  Call(Call),
  List(Vec<u32>),
}

#[derive(Debug, Clone, Copy, PartialEq, Eq)]
pub enum Asked {
  Impl { basic: u32 },
  Flex,
}

#[derive(Debug, Clone, PartialEq, Eq)]
pub struct Call {
  pub asked: Asked,
  pub source: u32,
  pub generics: u32,
  pub count: u32,
  pub sheet: Vec<u32>,
  pub question: Vec<u32>,
  pub answer_words: u32,
  pub work_words: u32,
}

#[derive(Debug, Clone, PartialEq, Eq)]
pub enum Answer {
  /// The count reached and the answer's words.
  Ok(u32, Vec<u32>),
  /// A refusal's number and the count reached.
  No(u32, u32),
  /// As `Ok`, where the Rust's closing assertion fails.
  Assert(u32, Vec<u32>),
  /// The listing's lines.
  List(Vec<String>),
}

impl Case {
  pub fn parse(line: &str) -> Result<Case, String> {
    let mut fields = Fields::of(line);
    let mut form = fields.word()?;
    let (mut answer_words, mut work_words) = (ANSWER_WORDS, WORK_WORDS);
    if form == "call" {
      form = fields.word()?;
      answer_words = fields.number()?;
      work_words = fields.number()?;
    }
    let case = match form {
      "list" => Case::List(fields.list()?),
      "impl" | "flex" => {
        let (source, generics) = (fields.number()?, fields.number()?);
        let asked =
          if form == "impl" { Asked::Impl { basic: fields.number()? } } else { Asked::Flex };
        let count = fields.number()?;
        let (sheet, question) = (fields.list()?, fields.list()?);
        Case::Call(Call {
          asked,
          source,
          generics,
          count,
          sheet,
          question,
          answer_words,
          work_words,
        })
      }
      _ => return Err(format!("unknown form {form}")),
    };
    fields.end()?;
    Ok(case)
  }
}

/// The fields of a line.
pub(crate) struct Fields<'a>(std::str::SplitAsciiWhitespace<'a>);

impl<'a> Fields<'a> {
  pub(crate) fn of(line: &'a str) -> Fields<'a> {
    Fields(line.split_ascii_whitespace())
  }

  pub(crate) fn word(&mut self) -> Result<&'a str, String> {
    self.0.next().ok_or("a field is missing".into())
  }

  pub(crate) fn number(&mut self) -> Result<u32, String> {
    let word = self.word()?;
    word.parse().map_err(|_| format!("{word} is no u32"))
  }

  /// A length, and as many numbers.
  pub(crate) fn list(&mut self) -> Result<Vec<u32>, String> {
    (0..self.number()?).map(|_| self.number()).collect()
  }

  pub(crate) fn end(&mut self) -> Result<(), String> {
    self.0.next().map_or(Ok(()), |word| Err(format!("{word} past the end")))
  }
}

impl Display for Case {
  fn fmt(&self, f: &mut fmt::Formatter<'_>) -> fmt::Result {
    let call = match self {
      Case::List(sheet) => {
        write!(f, "list")?;
        return write_list(f, sheet);
      }
      Case::Call(call) => call,
    };
    let form = if call.asked == Asked::Flex { "flex" } else { "impl" };
    if (call.answer_words, call.work_words) == (ANSWER_WORDS, WORK_WORDS) {
      write!(f, "{form}")?;
    } else {
      write!(f, "call {form} {} {}", call.answer_words, call.work_words)?;
    }
    write!(f, " {} {}", call.source, call.generics)?;
    if let Asked::Impl { basic } = call.asked {
      write!(f, " {basic}")?;
    }
    write!(f, " {}", call.count)?;
    write_list(f, &call.sheet)?;
    write_list(f, &call.question)
  }
}

pub(crate) fn write_list(f: &mut fmt::Formatter<'_>, words: &[u32]) -> fmt::Result {
  write!(f, " {}", words.len())?;
  words.iter().try_for_each(|word| write!(f, " {word}"))
}

impl Answer {
  /// The count reached; 0 for a listing.
  pub fn count(&self) -> u32 {
    match self {
      Answer::Ok(count, _) | Answer::No(_, count) | Answer::Assert(count, _) => *count,
      Answer::List(_) => 0,
    }
  }
}

impl Display for Answer {
  fn fmt(&self, f: &mut fmt::Formatter<'_>) -> fmt::Result {
    match self {
      Answer::No(number, count) => write!(f, "no {number} {count}"),
      Answer::List(lines) => write!(f, "{}", lines.join(";")),
      Answer::Ok(count, words) | Answer::Assert(count, words) => {
        let form = if matches!(self, Answer::Ok(..)) { "ok" } else { "assert" };
        write!(f, "{form} {count}")?;
        words.iter().try_for_each(|word| write!(f, " {word}"))
      }
    }
  }
}
