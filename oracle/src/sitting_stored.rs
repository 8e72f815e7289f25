//! The stored sittings: calls in turn with their answers, as lines for people and as words for a Rattle program.
//! `stored/README.md` says how both forms are read.

use std::{collections::BTreeMap, fs, io, path::Path};

use crate::{
  answers::Options,
  case::Asked,
  sitting_generate,
  sittings::{BETWEEN, Question, Sitting},
  tally::{Tally, outcome},
  worker::Worker,
};

const SEED: u64 = 2026;
const MOST_TRIED: u64 = 20_000;
/// How many sittings are kept at most, and how many are looked for that have an outcome.
const MOST_KEPT: usize = 40;
const OF_EACH: usize = 4;
/// The most words of a sheet and its questions together.
const MOST_WORDS: usize = 200;

struct Stored {
  sitting: Sitting,
  answers: Vec<String>,
}

/// Makes the sittings anew, in a directory.
pub fn make(directory: &Path, options: &Options) -> io::Result<()> {
  let mut worker = Worker::new(&Options { limits: true, ..options.clone() });
  let mut kept = Vec::new();
  let mut had: BTreeMap<String, usize> = BTreeMap::new();
  for index in 0..MOST_TRIED {
    let sitting = sitting_generate::sitting(SEED, index);
    let small = words(&sitting) <= MOST_WORDS && sitting.questions.len() >= 3;
    if kept.len() == MOST_KEPT || !small {
      continue;
    }
    let stored = stored(&mut worker, sitting)?;
    let outcomes: Vec<String> = stored.answers.iter().map(|answer| outcome(answer)).collect();
    let wanted = |outcome: &String| had.get(outcome).is_none_or(|&many| many < OF_EACH);
    if outcomes.iter().any(wanted) && ended(&stored) {
      outcomes.into_iter().for_each(|outcome| *had.entry(outcome).or_default() += 1);
      kept.push(stored);
    }
  }
  fs::write(directory.join("sittings.txt"), to_text(&kept))?;
  fs::write(directory.join("sittings.bin"), to_bytes(&kept))?;
  println!("{:>8} sittings", kept.len());
  Ok(())
}

/// Compares the sittings in a directory with what is said today.
pub fn check(directory: &Path, options: &Options, tally: &mut Tally) -> Result<(), String> {
  let open = |name: &str| fs::read(directory.join(name)).map_err(|e| format!("{name}: {e}"));
  let text = String::from_utf8(open("sittings.txt")?).map_err(|e| format!("sittings: {e}"))?;
  let all = from_text(&text).map_err(|e| format!("sittings: {e}"))?;
  if to_bytes(&all) != open("sittings.bin")? {
    return Err("sittings: sittings.bin does not hold what sittings.txt holds".into());
  }
  let mut worker = Worker::new(&Options { limits: true, ..options.clone() });
  for (n, then) in all.iter().enumerate() {
    let now = stored(&mut worker, then.sitting.clone()).map_err(|e| e.to_string())?;
    if now.answers != then.answers {
      let (then, now) = (then.answers.join(BETWEEN), now.answers.join(BETWEEN));
      return Err(format!("sittings, {n}:\n{then} is stored, and this is said now:\n{now}"));
    }
    then.answers.iter().for_each(|answer| tally.add(answer));
  }
  Ok(())
}

fn stored(worker: &mut Worker, sitting: Sitting) -> io::Result<Stored> {
  let answers = worker.answer(&sitting.to_string())?;
  Ok(Stored { sitting, answers: answers.split(BETWEEN).map(Into::into).collect() })
}

/// Whether all calls were answered or refused, in time and alike.
fn ended(stored: &Stored) -> bool {
  let said =
    |answer: &String| ["ok ", "no ", "assert "].iter().any(|form| answer.starts_with(form));
  stored.answers.len() == stored.sitting.questions.len() && stored.answers.iter().all(said)
}

fn words(sitting: &Sitting) -> usize {
  sitting.sheet.len() + sitting.questions.iter().map(|question| question.words.len()).sum::<usize>()
}

fn to_text(all: &[Stored]) -> String {
  let mut text = String::from("# generated sittings, by one Finder of the Rust each\n");
  for Stored { sitting, answers } in all {
    text += &format!("{sitting}\n= {}\n", answers.join(BETWEEN));
  }
  text
}

fn from_text(text: &str) -> Result<Vec<Stored>, String> {
  let mut all: Vec<Stored> = Vec::new();
  for line in text.lines() {
    match line.split_at_checked(2) {
      Some(("# ", _)) => {}
      Some(("= ", answers)) => {
        let last = all.last_mut().ok_or("an answer before the first sitting")?;
        last.answers = answers.split(BETWEEN).map(Into::into).collect();
      }
      _ => all.push(Stored { sitting: Sitting::parse(line)?, answers: Vec::new() }),
    }
  }
  Ok(all)
}

/// No cases; the number of sittings, and then each one's words behind their number; all words little-endian.
fn to_bytes(all: &[Stored]) -> Vec<u8> {
  let mut words = vec![0, all.len() as u32];
  for stored in all {
    let sitting = sitting_words(stored);
    words.push(sitting.len() as u32);
    words.extend(sitting);
  }
  words.into_iter().flat_map(u32::to_le_bytes).collect()
}

fn sitting_words(Stored { sitting, answers }: &Stored) -> Vec<u32> {
  let Sitting { source, generics, count, sheet, questions } = sitting;
  let mut words = vec![*source, *generics, *count, sheet.len() as u32];
  words.extend(sheet);
  words.push(questions.len() as u32);
  for (question, answer) in questions.iter().zip(answers) {
    words.extend(call_words(question, answer));
  }
  words
}

/// Form, basic flag, what is lent, the question; then number, count and the answer's words.
fn call_words(question: &Question, answer: &str) -> Vec<u32> {
  let (form, basic) = match question.asked {
    Asked::Impl { basic } => (0, basic),
    Asked::Flex => (1, 0),
  };
  let mut words = vec![form, basic, question.answer_words, question.work_words];
  words.push(question.words.len() as u32);
  words.extend(&question.words);
  let numbers: Vec<u32> =
    answer.split_ascii_whitespace().skip(1).map(|word| word.parse().unwrap()).collect();
  if answer.starts_with("no ") {
    words.extend([numbers[0], numbers[1], 0]);
  } else {
    words.extend([0, numbers[0], numbers.len() as u32 - 1]);
    words.extend(&numbers[1..]);
  }
  words
}
