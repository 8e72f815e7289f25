//! Sittings, seeded and repeatable: impl and flex questions in turn on a sheet that passes its checks, some of them damaged.

use crate::{
  case::{Asked, Call},
  checks::check_call,
  damage::damage,
  generate::{calls_of_a_world, random_call},
  rng::Rng,
  sheet::{chain, header},
  sittings::{Question, Sitting},
};

/// Sitting `index` of a seed, of 2 to 8 calls.
pub fn sitting(seed: u64, index: u64) -> Sitting {
  let mut rng = Rng::new(seed.rotate_left(40) ^ index.wrapping_mul(0x9e6c_63d0_876a_9a47));
  loop {
    let many = rng.range(2, 8);
    let calls = if rng.chance(50) {
      calls_of_a_world(&mut rng, many)
    } else {
      round_one_question(&mut rng, many)
    };
    // Only the lengths may be wrong with a case before it is damaged.
    if calls.iter().any(|call| check_call(call, 0).is_err()) {
      continue;
    }
    let Call { source, generics, ref sheet, .. } = calls[0];
    let (sheet, count) = (sheet.clone(), start(&mut rng));
    let questions = calls.iter().map(|call| question(&mut rng, call)).collect();
    return Sitting { source, generics, count, sheet, questions };
  }
}

/// A start count: 0, near the limit, below it, or where a count passes 1,000,000.
fn start(rng: &mut Rng) -> u32 {
  let count = match rng.weighted(&[40, 35, 17, 8]) {
    0 => 0,
    1 => rng.range(1_960, 2_001),
    2 => rng.below(2_000),
    _ => rng.pick(&[65_536, 999_990, 999_999, 1_000_000, 1_000_001]),
  };
  count as u32
}

/// A question of a sitting: most often as it is, else damaged, or with too little lent.
fn question(rng: &mut Rng, call: &Call) -> Question {
  let mut call = call.clone();
  if rng.chance(8) {
    let number = rng.pick(&[2, 3, 4, 11, 12, 13]);
    damage(&mut call, number, rng);
  }
  Question::of(&call)
}

/// A call of any theme, and others much like it: again, with the other basic flag, and flex and impl of its types.
fn round_one_question(rng: &mut Rng, many: usize) -> Vec<Call> {
  let first = random_call(rng);
  let mut calls = vec![first.clone()];
  while calls.len() < many {
    let mut call = first.clone();
    if rng.chance(70) {
      vary(rng, &mut call);
    }
    if check_call(&call, 0).is_ok() {
      calls.push(call);
    } else {
      calls.push(first.clone());
    }
  }
  calls
}

fn vary(rng: &mut Rng, call: &mut Call) {
  let nodes = match call.question.first() {
    Some(&table) => chain(&call.question, table).len(),
    None => 0,
  };
  let ty = if nodes == 0 { 0 } else { rng.below(2 * nodes) as u32 };
  match (rng.below(3), &mut call.asked) {
    (0, Asked::Impl { basic }) => *basic ^= 1,
    (1, asked) if nodes > 0 => {
      *asked = Asked::Flex;
      call.question[1] = ty;
      call.question[2] = 0;
    }
    (_, asked) if nodes > 0 && call.sheet[header::FORK] != 0 => {
      *asked = Asked::Impl { basic: 0 };
      let trait_ = if rng.chance(50) { header::FORK } else { header::DROP };
      call.question[1] = call.sheet[trait_];
      call.question[2] = call.question.len() as u32;
      call.question.extend([0, ty]);
    }
    _ => {}
  }
}
