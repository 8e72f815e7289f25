//! The calls as Rust makes them: document 01's Pin, refusals, short buffers, what the buffers hold after.

use vine_finder::{
  ANSWER_WORDS, Finder, Outcome, Refusal, Sitting, TreeKind, find_flex, find_impl, workspace_words,
};

const PIN: [u32; 68] = [
  1, 16, 44, 37, 48, 0, 41, 0, 0, 0, 0, 0, 0, 0, 0, 0, //
  23, 0, 0, 1, 0, 54, 0, //
  30, 1, 0, 0, 58, 0, 0, //
  0, 1, 0, 0, 0, 0, 0, //
  0, 0, 1, 0, //
  0, 1, 0, //
  0, 0, 0, 0, //
  0, 0, 0, 1, 61, 66, //
  0, 0, 0, 1, //
  0, 0, 0, //
  0, 4, 0, 0, 0, //
  0, 0,
];
const QUESTION: [u32; 10] = [3, 1, 8, 0, 4, 0, 0, 0, 0, 0];
const ANSWER: [u32; 16] = [6, 0, 10, 16, 0, 0, 0, 2, 0, 0, 0, 4, 0, 0, 0, 0];
const NOISE: u32 = 0xdead_beef;

#[test]
fn pin_is_answered() {
  let mut finder = Finder::new();
  let answer = finder.find_impl(&PIN, &QUESTION, 1, 0, 0, 0).unwrap();
  assert_eq!((answer.words(), answer.count()), (&ANSWER[..], 1));
  let tree = answer.tree().unwrap();
  assert_eq!((tree.kind, tree.id, tree.children.len()), (TreeKind::Def, 0, 0));
  assert_eq!((answer.drop_tree(), answer.types(1)), (None, &[0][..]));
}

#[test]
fn pin_is_refused_from_another_source() {
  let mut finder = Finder::new();
  let refused = finder.find_impl(&PIN, &QUESTION, 0, 0, 0, 0);
  assert_eq!(refused.unwrap_err(), Refusal { number: 20, count: 1 });
}

#[test]
fn the_step_limit_holds_between_calls() {
  let mut finder = Finder::new();
  assert_eq!(finder.find_impl(&PIN, &QUESTION, 1, 0, 0, 1_999).unwrap().count(), 2_000);
  let refused = finder.find_impl(&PIN, &QUESTION, 1, 0, 0, 2_000);
  assert_eq!(refused.unwrap_err(), Refusal { number: 18, count: 2_001 });
}

#[test]
fn a_sitting_goes_on_from_call_to_call() {
  let (mut answer, mut workspace) = (vec![NOISE; ANSWER_WORDS], vec![NOISE; workspace_words()]);
  let mut sitting = Sitting { spent: 1_998 };
  let mut ask = |sitting: &mut Sitting, source, question: &[u32]| {
    sitting.find_impl(&PIN, question, source, 0, 0, &mut answer, &mut workspace)
  };
  assert_eq!(ask(&mut sitting, 1, &QUESTION), Outcome::Answered { count: 1_999 });
  assert_eq!(ask(&mut sitting, 1, &[3, 1]), Outcome::Refused { number: 2, count: 1_999 });
  assert_eq!(ask(&mut sitting, 0, &QUESTION), Outcome::Refused { number: 20, count: 2_000 });
  assert_eq!(ask(&mut sitting, 1, &QUESTION), Outcome::Refused { number: 18, count: 2_001 });
  assert_eq!(sitting.spent, 2_001);
  let flex = sitting.find_flex(&PIN, &[3, 0, 0, 0, 4, 0, 0, 0], 1, 0, &mut answer, &mut workspace);
  assert_eq!(flex, Outcome::Refused { number: 22, count: 2_001 });
  assert_eq!((&answer[..16], answer[16]), (&ANSWER[..], NOISE));
}

#[test]
fn flex_without_a_fork_is_refused() {
  let question = [3, 0, 0, 0, 4, 0, 0, 0];
  let mut finder = Finder::new();
  let refused = finder.find_flex(&PIN, &question, 1, 0, 7);
  assert_eq!(refused.unwrap_err(), Refusal { number: 22, count: 7 });
}

/// A call on buffers of these lengths, full of noise, and what they hold after it.
fn on_noise(answer: usize, workspace: usize) -> (Outcome, Vec<u32>, Vec<u32>) {
  let (mut answer, mut workspace) = (vec![NOISE; answer], vec![NOISE; workspace]);
  let outcome = find_impl(&PIN, &QUESTION, 1, 0, 0, &mut answer, &mut workspace, 5);
  (outcome, answer, workspace)
}

#[test]
fn short_buffers_are_refused_and_untouched() {
  let words = workspace_words();
  for (answer, workspace, number) in [
    (ANSWER_WORDS - 1, words, 3),
    (0, words, 3),
    (ANSWER_WORDS, words - 1, 4),
    (ANSWER_WORDS, 0, 4),
    (0, 0, 3),
  ] {
    let (outcome, answer, workspace) = on_noise(answer, workspace);
    assert_eq!(outcome, Outcome::Refused { number, count: 5 });
    assert!(answer.iter().chain(&workspace).all(|&word| word == NOISE));
  }
}

#[test]
fn buffers_hold_what_document_01_says() {
  let (outcome, answer, workspace) = on_noise(ANSWER_WORDS + 3, workspace_words() + 3);
  assert_eq!(outcome, Outcome::Answered { count: 6 });
  assert_eq!(answer[..16], ANSWER);
  assert!(answer[16..].iter().all(|&word| word == NOISE));
  let (zeros, rest) = workspace.split_at(workspace_words());
  assert!(zeros.iter().all(|&word| word == 0));
  assert_eq!(rest, [NOISE; 3]);
}

#[test]
fn empty_slices_are_refused() {
  let (mut answer, mut workspace) = (vec![0; ANSWER_WORDS], vec![0; workspace_words()]);
  let refused = |number| Outcome::Refused { number, count: 0 };
  assert_eq!(find_impl(&[], &[], 0, 0, 0, &mut answer, &mut workspace, 0), refused(1));
  assert_eq!(find_flex(&PIN, &[], 0, 0, &mut answer, &mut workspace, 0), refused(2));
  assert_eq!(find_flex(&PIN, &QUESTION, 0, 0, &mut [], &mut [], 0), refused(3));
}
