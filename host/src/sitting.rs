//! Calls in a sitting: the count of steps goes on from each to the next.

use crate::Outcome;

mod c {
  unsafe extern "C" {
    pub fn vine_sitting_find_impl(
      sheet: *const u32,
      sheet_len: usize,
      question: *const u32,
      question_len: usize,
      source: u32,
      generics: u32,
      basic: u32,
      answer: *mut u32,
      answer_len: usize,
      workspace: *mut u32,
      workspace_len: usize,
      spent: *mut u32,
    ) -> u32;

    pub fn vine_sitting_find_flex(
      sheet: *const u32,
      sheet_len: usize,
      question: *const u32,
      question_len: usize,
      source: u32,
      generics: u32,
      answer: *mut u32,
      answer_len: usize,
      workspace: *mut u32,
      workspace_len: usize,
      spent: *mut u32,
    ) -> u32;
  }
}

/// A sitting: the steps spent so far. Each call goes on from them, and leaves there what is spent after it.
#[derive(Debug, Default, Clone, Copy, PartialEq, Eq)]
pub struct Sitting {
  pub spent: u32,
}

impl Sitting {
  /// The impl call, from what is spent.
  #[allow(clippy::too_many_arguments)]
  pub fn find_impl(
    &mut self,
    sheet: &[u32],
    question: &[u32],
    source: u32,
    generics: u32,
    basic: u32,
    answer: &mut [u32],
    workspace: &mut [u32],
  ) -> Outcome {
    // Each pointer has its own slice's length, and the borrows keep what is written apart from all else.
    let number = unsafe {
      c::vine_sitting_find_impl(
        sheet.as_ptr(),
        sheet.len(),
        question.as_ptr(),
        question.len(),
        source,
        generics,
        basic,
        answer.as_mut_ptr(),
        answer.len(),
        workspace.as_mut_ptr(),
        workspace.len(),
        &mut self.spent,
      )
    };
    self.ended(number)
  }

  /// The flex call, likewise.
  pub fn find_flex(
    &mut self,
    sheet: &[u32],
    question: &[u32],
    source: u32,
    generics: u32,
    answer: &mut [u32],
    workspace: &mut [u32],
  ) -> Outcome {
    // As above.
    let number = unsafe {
      c::vine_sitting_find_flex(
        sheet.as_ptr(),
        sheet.len(),
        question.as_ptr(),
        question.len(),
        source,
        generics,
        answer.as_mut_ptr(),
        answer.len(),
        workspace.as_mut_ptr(),
        workspace.len(),
        &mut self.spent,
      )
    };
    self.ended(number)
  }

  fn ended(&self, number: u32) -> Outcome {
    match number {
      0 => Outcome::Answered { count: self.spent },
      _ => Outcome::Refused { number, count: self.spent },
    }
  }
}
