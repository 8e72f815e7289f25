//! Document 01's pinned cases. What it prints of an answer is written down here as printed.

use super::{Edge, Outcome, flex_call, impl_call, nested};
use crate::{
  case::{Answer, Case},
  sheet::{header, kind},
};

/// Document 01's sheet Pin and question Q.
const PIN: [u32; 68] = [
  1, 16, 44, 37, 48, 0, 41, 0, 0, 0, 0, 0, 0, 0, 0, 0, // header
  23, 0, 0, 1, 0, 54, 0, 30, 1, 0, 0, 58, 0, 0, 0, 1, 0, 0, 0, 0, 0, // definitions
  0, 0, 1, 0, // trait
  0, 1, 0, // struct
  0, 0, 0, 0, // generics
  0, 0, 0, 1, 61, 66, // impl
  0, 0, 0, 1, // member
  0, 0, 0, // binding
  0, 4, 0, 0, 0, // node
  0, 0, // argument
];
const Q: [u32; 10] = [3, 1, 8, 0, 4, 0, 0, 0, 0, 0];
const Q_ANSWER: [u32; 16] = [6, 0, 10, 16, 0, 0, 0, 2, 0, 0, 0, 4, 0, 0, 0, 0];

/// Places in Pin.
const PIN_TRAITS: usize = 37;
const PIN_INHERENT: usize = 40;
const PIN_BINDINGS_OF_1: usize = 27;
const PIN_BINDING_VIS: usize = 59;

/// Document 01's pinned cases, in its order: the first nine are those marked as proved.
pub fn pinned() -> Vec<Edge> {
  let found = |count| Outcome::Printed(Answer::Ok(count, Q_ANSWER.to_vec()));
  let no = |number, count| Outcome::Refused(number, Some(count));
  let inherent = put(&PIN, &[(PIN_INHERENT, 1)]);
  let private = put(&inherent, &[(PIN_BINDING_VIS, 2)]);
  let unknown = put(&Q, &[(4, 0)]);
  let ask = |sheet: &[u32], source, count, question: &[u32]| {
    Case::Call(impl_call(sheet.to_vec(), source, count, question.to_vec()))
  };
  let mut cases = vec![
    (ask(&PIN, 1, 0, &Q), found(1), "Q from 1"),
    (ask(&PIN, 0, 0, &Q), no(20, 1), "Q from 0: impl 0 is unnamed"),
    (ask(&inherent, 0, 0, &Q), found(1), "inherent count 1, Q from 0"),
    (ask(&private, 0, 0, &Q), no(20, 1), "inherent count 1, its binding's vis 2"),
    (ask(&inherent, 0, 0, &unknown), no(18, 1), "inherent count 1, unknown argument"),
    (ask(&PIN, 1, 1_999, &Q), found(2_000), "Q from 1 at 1,999"),
    (ask(&PIN, 1, 2_000, &Q), no(18, 2_001), "Q from 1 at 2,000"),
  ];
  for (inherent, kind, words, why) in [
    (0, kind::FN, FN_ANSWER.to_vec(), "flex on an upright Fn, no impl bound: both trees"),
    (
      1,
      kind::UNKNOWN,
      NO_TREE_ANSWER.to_vec(),
      "flex on an unknown, both inherent counts 1: neither tree",
    ),
  ] {
    let call = flex_call(flex_pin(inherent), 1, 0, vec![3, 0, 0, 0, kind, 0, 0, 0]);
    cases.push((Case::Call(call), Outcome::Printed(Answer::Ok(4, words)), why));
  }
  for (levels, outcome, why) in [
    (15, Outcome::Found(Some(16)), "15 S round Leaf: found at 16 steps"),
    (16, no(15, 17), "16 S round Leaf: depth 17 at count 17"),
  ] {
    cases.push((Case::Call(nested(levels, 0)), outcome, why));
  }
  let lines = ["0:", "1: 0", "2:"].map(String::from).to_vec();
  cases.push((Case::List(PIN.to_vec()), Outcome::Printed(Answer::List(lines)), "Pin's listing"));
  cases.into_iter().map(|(case, outcome, why)| Edge { case, outcome, why: why.into() }).collect()
}

/// Both trees are impl 0, duplicate and erase; the answer's only node is the Fn.
const FN_ANSWER: [u32; 20] = [6, 10, 14, 20, 0, 0, 0, 2, 0, 0, 0, 2, 0, 0, 0, 7, 0, 0, 0, 0];
const NO_TREE_ANSWER: [u32; 12] = [0, 0, 6, 12, 0, 0, 0, 0, 0, 0, 0, 0];

/// Pin with a second trait, the first being Fork and it Drop; duplicate and erase set; no impl bound.
fn flex_pin(inherent: u32) -> Vec<u32> {
  let changes = [
    (header::FORK, 1),
    (header::DROP, 2),
    (header::DUPLICATE, 1),
    (header::ERASE, 1),
    (PIN_BINDINGS_OF_1, 0),
    (PIN_TRAITS, 68),
    (PIN_INHERENT, inherent),
  ];
  let mut sheet = put(&PIN, &changes);
  sheet.extend([0, 0, 1, inherent]);
  sheet
}

fn put(words: &[u32], changes: &[(usize, u32)]) -> Vec<u32> {
  let mut words = words.to_vec();
  changes.iter().for_each(|&(place, word)| words[place] = word);
  words
}
