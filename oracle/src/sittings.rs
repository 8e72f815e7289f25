//! Sittings: calls on one sheet from one source and generics, asked in turn, each from the count that the one before it
//! left. The Rust answers them with one `Finder`, whose steps go on.
//!
//! A line is `sit SOURCE GENERICS COUNT NS s..`, and behind each ` ; ` a question: `impl BASIC NQ q..` or `flex NQ q..`, with
//! `call`, then the lengths of answer buffer and workspace, before it where they are others than the least. What is said to
//! it are the answers, with ` ; ` between them.

use std::fmt::{self, Display};

use crate::{
  answers::{Options, differs, refused},
  case::{ANSWER_WORDS, Answer, Asked, Call, Case, Fields, WORK_WORDS, write_list},
  model,
  rust::{self, Seat},
};

/// What stands between the questions of a line, and between the answers to it.
pub const BETWEEN: &str = " ; ";

#[derive(Debug, Clone, PartialEq, Eq)]
pub struct Sitting {
  pub source: u32,
  pub generics: u32,
  pub count: u32,
  pub sheet: Vec<u32>,
  pub questions: Vec<Question>,
}

#[derive(Debug, Clone, PartialEq, Eq)]
pub struct Question {
  pub asked: Asked,
  pub words: Vec<u32>,
  pub answer_words: u32,
  pub work_words: u32,
}

impl Question {
  pub fn of(call: &Call) -> Question {
    let Call { asked, ref question, answer_words, work_words, .. } = *call;
    Question { asked, words: question.clone(), answer_words, work_words }
  }
}

impl Sitting {
  /// The call of a question, from a count.
  pub fn call(&self, question: &Question, count: u32) -> Call {
    Call {
      asked: question.asked,
      source: self.source,
      generics: self.generics,
      count,
      sheet: self.sheet.clone(),
      question: question.words.clone(),
      answer_words: question.answer_words,
      work_words: question.work_words,
    }
  }

  /// The calls, all from the count at which the sitting begins.
  pub fn calls(&self) -> Vec<Call> {
    self.questions.iter().map(|question| self.call(question, self.count)).collect()
  }

  pub fn is_line(line: &str) -> bool {
    line.starts_with("sit ")
  }

  pub fn parse(line: &str) -> Result<Sitting, String> {
    let mut parts = line.split(BETWEEN);
    let mut fields = Fields::of(parts.next().unwrap_or_default());
    if fields.word()? != "sit" {
      return Err("no sitting".into());
    }
    let (source, generics, count) = (fields.number()?, fields.number()?, fields.number()?);
    let sheet = fields.list()?;
    fields.end()?;
    let questions = parts.map(question).collect::<Result<_, _>>()?;
    Ok(Sitting { source, generics, count, sheet, questions })
  }
}

fn question(part: &str) -> Result<Question, String> {
  let mut fields = Fields::of(part);
  let mut form = fields.word()?;
  let (mut answer_words, mut work_words) = (ANSWER_WORDS, WORK_WORDS);
  if form == "call" {
    (answer_words, work_words) = (fields.number()?, fields.number()?);
    form = fields.word()?;
  }
  let asked = match form {
    "impl" => Asked::Impl { basic: fields.number()? },
    "flex" => Asked::Flex,
    _ => return Err(format!("unknown form {form}")),
  };
  let words = fields.list()?;
  fields.end()?;
  Ok(Question { asked, words, answer_words, work_words })
}

impl Display for Sitting {
  fn fmt(&self, f: &mut fmt::Formatter<'_>) -> fmt::Result {
    write!(f, "sit {} {} {}", self.source, self.generics, self.count)?;
    write_list(f, &self.sheet)?;
    for question in &self.questions {
      write!(f, "{BETWEEN}")?;
      if (question.answer_words, question.work_words) != (ANSWER_WORDS, WORK_WORDS) {
        write!(f, "call {} {} ", question.answer_words, question.work_words)?;
      }
      match question.asked {
        Asked::Impl { basic } => write!(f, "impl {basic}")?,
        Asked::Flex => write!(f, "flex")?,
      }
      write_list(f, &question.words)?;
    }
    Ok(())
  }
}

/// The answers to a sitting, as `answers::answer` gives one: the Rust's are those of one `Finder`.
pub fn answers(sitting: &Sitting, options: &Options) -> Vec<String> {
  let calls = sitting.calls();
  let passes = |call: &Call| refused(&Case::Call(call.clone()), options.work).is_none();
  if options.model || !calls.iter().any(passes) {
    return of_document(sitting, options).iter().map(Answer::to_string).collect();
  }
  rust::seated(&calls, options.limit, passes, |mut seat| {
    let each = sitting.questions.iter().enumerate();
    let answers = each.map(|(n, question)| {
      let call = sitting.call(question, seat.count());
      answer(&mut seat, n, &call, options)
    });
    answers.collect()
  })
}

/// The answer to call n, which is asked from the count that the last one left.
fn answer(seat: &mut Seat<'_>, n: usize, call: &Call, options: &Options) -> String {
  let case = Case::Call(call.clone());
  if let Some(refused) = refused(&case, options.work) {
    return refused.to_string();
  }
  if !options.limits {
    return seat.ask(n).to_string();
  }
  let modelled = model::call(call, options.limit);
  if model::is_limit(&modelled) {
    seat.set_count(modelled.count());
    return modelled.to_string();
  }
  let answer = seat.ask(n);
  differs(&answer, &modelled).unwrap_or_else(|| answer.to_string())
}

/// What document 01 gives, by checks and model alone.
pub fn of_document(sitting: &Sitting, options: &Options) -> Vec<Answer> {
  let mut count = sitting.count;
  let mut answers = Vec::new();
  for question in &sitting.questions {
    let case = Case::Call(sitting.call(question, count));
    let answer = crate::answers::of_document(&case, options);
    count = answer.count();
    answers.push(answer);
  }
  answers
}
