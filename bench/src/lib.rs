//! The port beside the Rust: how a case of the oracle is run by the port, and what its buffers must hold after.

use oracle::case::{Answer, Asked, Call};
use vine_finder::{ANSWER_WORDS, Outcome, Sitting, find_flex, find_impl, workspace_words};

pub mod adversary;
pub mod classes;
pub mod stack;
pub mod worst;

/// How many words more than the least are lent, which no call may touch.
const TAIL: usize = 64;

/// An answer buffer and a workspace for calls, and the noise that they are full of before each.
pub struct Buffers {
  noise: Vec<u32>,
  answer: Vec<u32>,
  workspace: Vec<u32>,
}

impl Default for Buffers {
  fn default() -> Buffers {
    let length = workspace_words() + TAIL;
    let mut word = 0x9e37_79b9_u32;
    let noise = Vec::from_iter((0..length).map(|_| {
      word ^= word << 13;
      word ^= word >> 17;
      word ^= word << 5;
      word
    }));
    Buffers { noise, answer: vec![0; ANSWER_WORDS + TAIL], workspace: vec![0; length] }
  }
}

impl Buffers {
  /// Runs the port on a case, from noise, and says what it gave and what is wrong with the buffers after it.
  pub fn run(&mut self, call: &Call) -> (Answer, Option<String>) {
    self.run_by(call, ask)
  }

  /// The same for a call in a sitting; the call's own count is not looked at.
  pub fn run_in(&mut self, sitting: &mut Sitting, call: &Call) -> (Answer, Option<String>) {
    self.run_by(call, |call, answer, workspace| ask_in(sitting, call, answer, workspace))
  }

  fn run_by(
    &mut self,
    call: &Call,
    ask: impl FnOnce(&Call, &mut [u32], &mut [u32]) -> Outcome,
  ) -> (Answer, Option<String>) {
    let answer_length = lent(call.answer_words, ANSWER_WORDS);
    let work_length = lent(call.work_words, workspace_words());
    self.answer.copy_from_slice(&self.noise[..ANSWER_WORDS + TAIL]);
    self.workspace.copy_from_slice(&self.noise);
    let outcome = ask(call, &mut self.answer[..answer_length], &mut self.workspace[..work_length]);
    match outcome {
      Outcome::Refused { number, count } => {
        (Answer::No(number, count), self.after(0, (1..=5).contains(&number)))
      }
      Outcome::Answered { count } => {
        let used = self.answer[3] as usize;
        if used > answer_length {
          return (Answer::Ok(count, Vec::new()), Some(format!("{used} words of an answer")));
        }
        (Answer::Ok(count, self.answer[..used].to_vec()), self.after(used, false))
      }
    }
  }

  /// What is wrong with the buffers after a call: the answer is so long, and the workspace untouched or cleared.
  fn after(&self, used: usize, untouched: bool) -> Option<String> {
    let cleared = if untouched { 0 } else { workspace_words() };
    let behind = first_difference(&self.answer[used..], &self.noise[used..ANSWER_WORDS + TAIL]);
    if let Some(place) = behind {
      return Some(format!("answer word {} is written", used + place));
    }
    if let Some(place) = self.workspace[..cleared].iter().position(|&word| word != 0) {
      return Some(format!("workspace word {place} is not 0"));
    }
    first_difference(&self.workspace[cleared..], &self.noise[cleared..])
      .map(|place| format!("workspace word {} is written", cleared + place))
  }
}

fn first_difference(a: &[u32], b: &[u32]) -> Option<usize> {
  if a == b { None } else { a.iter().zip(b).position(|(a, b)| a != b) }
}

/// How many words to lend where a case says so many: no more than the least and the tail.
fn lent(said: u32, least: usize) -> usize {
  let said = said as usize;
  if said == least { least } else { said.min(least + TAIL) }
}

/// The port's call for a case, on buffers of the caller's.
pub fn ask(call: &Call, answer: &mut [u32], workspace: &mut [u32]) -> Outcome {
  let Call { source, generics, count, ref sheet, ref question, .. } = *call;
  match call.asked {
    Asked::Impl { basic } => {
      find_impl(sheet, question, source, generics, basic, answer, workspace, count)
    }
    Asked::Flex => find_flex(sheet, question, source, generics, answer, workspace, count),
  }
}

/// The same in a sitting, from what is spent there.
pub fn ask_in(
  sitting: &mut Sitting,
  call: &Call,
  answer: &mut [u32],
  workspace: &mut [u32],
) -> Outcome {
  let Call { source, generics, ref sheet, ref question, .. } = *call;
  match call.asked {
    Asked::Impl { basic } => {
      sitting.find_impl(sheet, question, source, generics, basic, answer, workspace)
    }
    Asked::Flex => sitting.find_flex(sheet, question, source, generics, answer, workspace),
  }
}
