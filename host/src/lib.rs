//! Vine's impl finder for Rust: safe calls over the C interface of the port (include/vine_finder.h).
//!
//! [`find_impl`] and [`find_flex`] borrow all buffers. A [`Finder`] owns an answer buffer and a workspace, and lends them
//! to each of its calls. A [`Sitting`] holds the steps spent, which go on from call to call.

mod answer;
mod sitting;

pub use answer::{Answer, Tree, TreeKind};
pub use sitting::Sitting;

/// The least length of an answer buffer, in words.
pub const ANSWER_WORDS: usize = 10_240;

mod c {
  // A slice crosses as two scalars, a pointer and its length.
  unsafe extern "C" {
    pub safe fn vine_workspace_words() -> u32;

    pub fn vine_find_impl(
      sheet: *const u32,
      sheet_len: usize,
      question: *const u32,
      question_len: usize,
      source: u32,
      generics: u32,
      basic: u32,
      answer: *mut u32,
      answer_len: usize,
      workspace: *mut u32,
      workspace_len: usize,
      count: u32,
    ) -> u64;

    pub fn vine_find_flex(
      sheet: *const u32,
      sheet_len: usize,
      question: *const u32,
      question_len: usize,
      source: u32,
      generics: u32,
      answer: *mut u32,
      answer_len: usize,
      workspace: *mut u32,
      workspace_len: usize,
      count: u32,
    ) -> u64;
  }
}

/// What a call comes to. `count` is the count of steps after it, `number` that of the refusal.
#[derive(Debug, Clone, Copy, PartialEq, Eq)]
pub enum Outcome {
  Answered { count: u32 },
  Refused { number: u32, count: u32 },
}

impl Outcome {
  fn from_result(result: u64) -> Outcome {
    let (number, count) = (result as u32, (result >> 32) as u32);
    match number {
      0 => Outcome::Answered { count },
      _ => Outcome::Refused { number, count },
    }
  }

  /// The count of steps after the call.
  pub fn count(self) -> u32 {
    match self {
      Outcome::Answered { count } | Outcome::Refused { count, .. } => count,
    }
  }
}

/// The least length of a workspace, in words.
pub fn workspace_words() -> usize {
  c::vine_workspace_words() as usize
}

/// The impl call. Answered, the answer's words stand at the front of `answer`, as many as its word 3 says.
#[allow(clippy::too_many_arguments)]
pub fn find_impl(
  sheet: &[u32],
  question: &[u32],
  source: u32,
  generics: u32,
  basic: u32,
  answer: &mut [u32],
  workspace: &mut [u32],
  count: u32,
) -> Outcome {
  // Each pointer has its own slice's length, and the borrows keep the written slices apart from all others.
  Outcome::from_result(unsafe {
    c::vine_find_impl(
      sheet.as_ptr(),
      sheet.len(),
      question.as_ptr(),
      question.len(),
      source,
      generics,
      basic,
      answer.as_mut_ptr(),
      answer.len(),
      workspace.as_mut_ptr(),
      workspace.len(),
      count,
    )
  })
}

/// The flex call, likewise.
#[allow(clippy::too_many_arguments)]
pub fn find_flex(
  sheet: &[u32],
  question: &[u32],
  source: u32,
  generics: u32,
  answer: &mut [u32],
  workspace: &mut [u32],
  count: u32,
) -> Outcome {
  // As above.
  Outcome::from_result(unsafe {
    c::vine_find_flex(
      sheet.as_ptr(),
      sheet.len(),
      question.as_ptr(),
      question.len(),
      source,
      generics,
      answer.as_mut_ptr(),
      answer.len(),
      workspace.as_mut_ptr(),
      workspace.len(),
      count,
    )
  })
}

/// A refusal: its number in document 01, and the count of steps after the call.
#[derive(Debug, Clone, Copy, PartialEq, Eq)]
pub struct Refusal {
  pub number: u32,
  pub count: u32,
}

/// An answer buffer and a workspace, lent to each call.
#[derive(Debug, Clone)]
pub struct Finder {
  answer: Vec<u32>,
  workspace: Vec<u32>,
}

impl Default for Finder {
  fn default() -> Finder {
    Finder { answer: vec![0; ANSWER_WORDS], workspace: vec![0; workspace_words()] }
  }
}

impl Finder {
  pub fn new() -> Finder {
    Finder::default()
  }

  /// The impl call. `basic` is a flag of 0 or 1.
  pub fn find_impl(
    &mut self,
    sheet: &[u32],
    question: &[u32],
    source: u32,
    generics: u32,
    basic: u32,
    count: u32,
  ) -> Result<Answer<'_>, Refusal> {
    let Finder { answer, workspace } = self;
    let outcome = find_impl(sheet, question, source, generics, basic, answer, workspace, count);
    self.ended(outcome)
  }

  /// The flex call.
  pub fn find_flex(
    &mut self,
    sheet: &[u32],
    question: &[u32],
    source: u32,
    generics: u32,
    count: u32,
  ) -> Result<Answer<'_>, Refusal> {
    let Finder { answer, workspace } = self;
    let outcome = find_flex(sheet, question, source, generics, answer, workspace, count);
    self.ended(outcome)
  }

  fn ended(&self, outcome: Outcome) -> Result<Answer<'_>, Refusal> {
    match outcome {
      Outcome::Answered { count } => Ok(Answer::new(&self.answer, count)),
      Outcome::Refused { number, count } => Err(Refusal { number, count }),
    }
  }
}
