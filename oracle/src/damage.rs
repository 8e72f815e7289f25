//! Ours: turns calls that pass checks 1 to 13 into calls that one of them refuses.

use crate::{
  case::{Asked, Call, Case},
  checks::check_call,
  generate,
  rng::Rng,
  sheet::{chain, header, records},
};

/// How often one call is damaged before another is taken.
const TRIES: usize = 40;

/// Damaged case `index` of a seed: refused by each of 1 to 13 in turn, or by an earlier one where it is damaged twice.
pub fn case(seed: u64, index: u64, work: u32) -> Case {
  let mut rng = Rng::new(seed.rotate_left(32) ^ index.wrapping_mul(0x2545_f491_4f6c_dd1d));
  let number = 1 + (index % 13) as u32;
  for next in 0.. {
    let Case::Call(call) = generate::case(seed, index.wrapping_mul(1_000_003).wrapping_add(next))
    else {
      continue;
    };
    for _ in 0..TRIES {
      let mut damaged = call.clone();
      damage(&mut damaged, number, &mut rng);
      if check_call(&damaged, work).is_err_and(|refusal| refusal.number == number) {
        if rng.chance(15) {
          // A knot is tied in whole chains only.
          let second = rng.pick(&[1, 2, 3, 4, 5, 6, 7, 8, 10, 11, 12]);
          damage(&mut damaged, second, &mut rng);
        }
        // A sheet that is refused is so by the listing program too.
        let by_sheet = check_call(&damaged, work).is_err_and(|r| matches!(r.number, 1 | 6..=9));
        return if by_sheet && rng.chance(15) {
          Case::List(damaged.sheet)
        } else {
          Case::Call(damaged)
        };
      }
    }
  }
  unreachable!("there is always a next call")
}

/// Changes a call so that the check of that number may refuse it.
pub(crate) fn damage(call: &mut Call, number: u32, rng: &mut Rng) {
  match number {
    1 => resize(&mut call.sheet, 16, 4_096, rng),
    2 => resize(&mut call.question, 3, 1_024, rng),
    3 => call.answer_words = rng.pick(&[0, 1, 5_000, 10_239]),
    4 => call.work_words = rng.pick(&[0, 1, 16]),
    5 => call.count = rng.pick(&[1_000_001, 1_048_576, 4_000_000_000, u32::MAX]),
    6 => set(&mut call.sheet, 0, rng.pick(&[0, 2, 3, 257, u32::MAX])),
    7 | 8 => change_words(&mut call.sheet, rng),
    9 => {
      let tables = sheet_tables(&call.sheet);
      tie_knot(&mut call.sheet, &tables, rng);
    }
    10 => damage_ids(call, rng),
    11 | 12 => change_words(&mut call.question, rng),
    _ => {
      let tables = [call.question.first().copied().unwrap_or(0)];
      tie_knot(&mut call.question, &tables, rng);
    }
  }
}

fn set(words: &mut [u32], place: usize, word: u32) {
  if let Some(old) = words.get_mut(place) {
    *old = word;
  }
}

/// Makes a slice too short, or, at times, too long.
fn resize(words: &mut Vec<u32>, least: usize, most: usize, rng: &mut Rng) {
  let length = if rng.chance(97) { rng.below(least) } else { most + rng.range(1, 3) };
  words.resize(length, 0);
}

fn damage_ids(call: &mut Call, rng: &mut Rng) {
  let large = rng.pick(&[1, 2, 7, 128, 4_096, u32::MAX]);
  match (rng.below(3), &mut call.asked) {
    (0, _) => call.source = large,
    (1, Asked::Impl { basic }) => *basic = large.saturating_add(1),
    _ => call.generics = large,
  }
}

/// Changes a word or two to what is near something.
fn change_words(words: &mut [u32], rng: &mut Rng) {
  if words.len() < 2 {
    return;
  }
  for _ in 0..rng.weighted(&[0, 80, 20]) {
    let place = rng.below(words.len());
    let length = words.len();
    let near = [
      0,
      1,
      2,
      3,
      4,
      5,
      9,
      14,
      15,
      16,
      17,
      127,
      128,
      129,
      place.wrapping_sub(1),
      place,
      place + rng.range(1, 8),
      length - rng.range(1, length.min(8)),
      length,
      rng.below(length),
      usize::from(u16::MAX),
      u32::MAX as usize,
      words[place].wrapping_add(1) as usize,
      words[place].wrapping_sub(1) as usize,
    ];
    words[place] = rng.pick(&near) as u32;
  }
}

/// The heads of a sheet's tables.
fn sheet_tables(sheet: &[u32]) -> Vec<u32> {
  let generics =
    records::<4>(sheet, sheet[header::GENERICS]).into_iter().map(|[_, _, table, _]| table);
  let impls =
    records::<6>(sheet, sheet[header::IMPLS]).into_iter().map(|[_, _, _, _, table, _]| table);
  generics.chain(impls).collect()
}

/// Lets a child of some node be any node of its table.
fn tie_knot(words: &mut [u32], tables: &[u32], rng: &mut Rng) {
  let mut cells = Vec::new();
  for &table in tables {
    let nodes = records::<5>(words, table);
    for [.., children] in &nodes {
      cells.extend(chain(words, *children).into_iter().map(|cell| (cell, nodes.len())));
    }
  }
  if !cells.is_empty() {
    let (cell, nodes) = rng.pick(&cells);
    words[cell + 1] = rng.below(2 * nodes) as u32;
  }
}
