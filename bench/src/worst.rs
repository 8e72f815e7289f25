//! The worst inputs: each timed in a child process, so that one that does not end in time can be given up; and a search by
//! chance for worse ones.

use std::{
  env, fs,
  io::{self, Read, Write},
  process::{Command, Stdio},
  thread,
  time::{Duration, Instant},
};

use oracle::{
  answers::{self, Options},
  case::{Answer, Call, Case},
  rng::Rng,
  rust,
};
use vine_finder::{ANSWER_WORDS, Outcome, workspace_words};

use crate::{
  adversary::{self, Worst},
  ask, classes,
};

/// How long an input may take, and how long the port is waited for.
const IN_TIME: Duration = Duration::from_secs(1);
const GIVEN_UP: Duration = Duration::from_secs(3);
/// What a search may take that spends all steps, in times of the Rust's for 15 S round Leaf: five times what an input may take, where that
/// was set and the Rust took 61 µs.
const SEARCH: f64 = 5e6 / 61.0;
/// How often one that takes longer is timed, since other work on the machine makes both slower, and not always at once.
const TRIES: usize = 3;
/// How long and how often a call is run, but for slow ones.
const RUNS: Duration = Duration::from_millis(40);
const LEAST_RUNS: usize = 3;
const LOOK: Duration = Duration::from_micros(500);
const MOST_MEMORY: u64 = 2 << 30;
/// How much stack the child's thread has: the Rust recurses deeply.
const STACK: usize = 1 << 30;

/// Which side answers: the port, the Rust, or the oracle's checks and model.
#[derive(Debug, Clone, Copy, PartialEq, Eq)]
pub enum Side {
  Port,
  Rust,
  Model,
}

impl Side {
  fn name(self) -> &'static str {
    match self {
      Side::Port => "port",
      Side::Rust => "rust",
      Side::Model => "model",
    }
  }

  fn answer(self, call: &Call, answer: &mut [u32], workspace: &mut [u32]) -> Answer {
    match self {
      Side::Port => match ask(call, answer, workspace) {
        Outcome::Answered { count } => Answer::Ok(count, Vec::new()),
        Outcome::Refused { number, count } => Answer::No(number, count),
      },
      Side::Rust => rust::call(call, rust::STEPS_LIMIT),
      Side::Model => answers::of_document(&Case::Call(call.clone()), &Options::default()),
    }
  }
}

/// What a child says of a call: the best processor time of its runs, the number of its refusal or 0, the count, and a sum of the answer's
/// words.
#[derive(Debug, Clone, Copy)]
pub struct Took {
  pub time: Duration,
  pub number: u32,
  pub count: u32,
  pub sum: u32,
}

/// Times a call in a child process; nothing where that has not ended after so long, or takes too much memory.
pub fn timed(call: &Call, side: Side, most: Duration) -> Option<Took> {
  let mut child = Command::new(env::current_exe().unwrap())
    .args(["once", side.name()])
    .stdin(Stdio::piped())
    .stdout(Stdio::piped())
    .stderr(Stdio::null())
    .spawn()
    .unwrap();
  let line = Case::Call(call.clone()).to_string();
  child.stdin.take().unwrap().write_all(line.as_bytes()).unwrap();
  let begun = Instant::now();
  while child.try_wait().unwrap().is_none() {
    if begun.elapsed() > most || memory(child.id()) > MOST_MEMORY {
      child.kill().unwrap();
      child.wait().unwrap();
      return None;
    }
    thread::sleep(LOOK);
  }
  let mut said = String::new();
  child.stdout.take().unwrap().read_to_string(&mut said).unwrap();
  let numbers: Option<Vec<u64>> = said.split_whitespace().map(|word| word.parse().ok()).collect();
  let [nanos, number, count, sum] = numbers?[..] else { return None };
  let [number, count, sum] = [number, count, sum].map(|number| number as u32);
  Some(Took { time: Duration::from_nanos(nanos), number, count, sum })
}

/// The bytes that a process has in memory.
fn memory(id: u32) -> u64 {
  let pages = fs::read_to_string(format!("/proc/{id}/statm")).unwrap_or_default();
  pages.split(' ').nth(1).and_then(|pages| pages.parse::<u64>().ok()).unwrap_or(0) * 4_096
}

/// The child's side: the call on standard input, run a few times if it is quick.
pub fn once(side: &str) {
  let mut line = String::new();
  io::stdin().read_to_string(&mut line).unwrap();
  let Ok(Case::Call(call)) = Case::parse(line.trim()) else { panic!("no call: {line}") };
  let sides = [Side::Port, Side::Rust, Side::Model];
  let side = sides.into_iter().find(|known| known.name() == side).unwrap();
  rust::quiet_panics();
  let run = move || best_of(&call, side);
  let took = thread::Builder::new().stack_size(STACK).spawn(run).unwrap().join().unwrap();
  println!("{} {} {} {}", took.time.as_nanos(), took.number, took.count, took.sum);
}

/// The processor time of this thread, which other work on the machine does not add to.
fn processor_time() -> Duration {
  unsafe extern "C" {
    fn clock_gettime(clock: i32, time: *mut [i64; 2]) -> i32;
  }
  const THREAD: i32 = 3;
  let mut time = [0; 2];
  // The C library writes seconds and nanoseconds.
  unsafe { clock_gettime(THREAD, &mut time) };
  Duration::new(time[0] as u64, time[1] as u32)
}

fn best_of(call: &Call, side: Side) -> Took {
  let mut buffer = vec![0; ANSWER_WORDS];
  let mut workspace = vec![1; workspace_words()];
  let begun = Instant::now();
  let mut best = Duration::MAX;
  let mut runs = 0;
  loop {
    let started = processor_time();
    let answer = side.answer(call, &mut buffer, &mut workspace);
    best = best.min(processor_time() - started);
    runs += 1;
    if begun.elapsed() > RUNS && (runs >= LEAST_RUNS || begun.elapsed() > IN_TIME) {
      let (number, count, words) = match answer {
        Answer::No(number, count) => (number, count, Vec::new()),
        Answer::Ok(count, _) if side == Side::Port => {
          (0, count, buffer[..buffer[3] as usize].to_vec())
        }
        Answer::Ok(count, words) | Answer::Assert(count, words) => (0, count, words),
        Answer::List(_) => unreachable!("the answer to a call"),
      };
      let sum = words.iter().fold(0_u32, |sum, &word| sum.wrapping_mul(31).wrapping_add(word));
      return Took { time: best, number, count, sum };
    }
  }
}

/// Prints the worst inputs, joins to so many levels, each with the port's time and the Rust's. Whether all have ended in time
/// and agree with the model, as far as that ends.
pub fn table(levels: usize) -> bool {
  println!(
    "{:18} {:56} {:>2} {:>5} {:>10} {:>10}",
    "part", "worst input", "no", "steps", "port ms", "Rust ms"
  );
  let mut slow = 0;
  let mut wrong = 0;
  for worst in adversary::all(levels) {
    assert!(adversary::fits(&worst.call), "{} is too large", worst.name);
    let port = timed(&worst.call, Side::Port, GIVEN_UP);
    print_row(&worst, port);
    slow += usize::from(port.is_none_or(|took| took.time > IN_TIME));
    if port.is_some_and(|took| differs(&worst.call, took)) {
      println!("{:18} {} DIFFERS from the model", "", worst.name);
      wrong += 1;
    }
  }
  println!("{slow} take more than {IN_TIME:?}; {wrong} differ from the model");
  slow + wrong == 0
}

/// The Rust's time for 15 S round Leaf, now.
fn rust_time() -> Duration {
  timed(&classes::nested(15), Side::Rust, GIVEN_UP).expect("the Rust ends in time").time
}

/// The steps that a search spends, and the port's time for it in times of the Rust's before and after it; nothing where it is given up.
fn beside_rust(call: &Call) -> Option<(u32, f64)> {
  let before = rust_time();
  let took = timed(call, Side::Port, before.mul_f64(2.0 * SEARCH))?;
  let rust = (before + rust_time()) / 2;
  Some((took.count, took.time.as_secs_f64() / rust.as_secs_f64()))
}

/// Whether the searches of impl calls that spend all steps end in time; and whether the tests before a candidate is opened do what they
/// are for: those in which the first finds what fails take at most half of what the slowest takes, in which the rule is followed in its
/// own order.
pub fn searches_end() -> bool {
  let searches: Vec<_> = adversary::impl_searches()
    .into_iter()
    .map(|(worst, found)| (beside_rust(&worst.call), worst, found))
    .collect();
  let followed = searches.iter().filter(|(_, _, found)| !found);
  let slowest = followed.filter_map(|(took, ..)| took.map(|(_, times)| times)).fold(0.0, f64::max);
  let mut ended = 0;
  for (took, worst, found) in &searches {
    let most = if *found { slowest / 2.0 } else { SEARCH };
    let in_time = |took: &Option<(u32, f64)>| {
      took.is_some_and(|(count, times)| count > rust::STEPS_LIMIT && times <= most)
    };
    let again = (1..TRIES).map(|_| beside_rust(&worst.call));
    let last = [*took].into_iter().chain(again).find(in_time);
    ended += usize::from(last.is_some());
    if last.is_none() {
      println!("{}: {took:?}, in times of the Rust, and {most:.0} is the most", worst.name);
    }
  }
  println!(
    "{ended} of {} searches that spend all steps have ended in time (the slowest in {slowest:.0} times of the Rust, of {SEARCH:.0})",
    searches.len(),
  );
  ended == searches.len()
}

fn print_row(worst: &Worst, port: Option<Took>) {
  let Worst { part, name, call } = worst;
  let checked = port.is_none_or(|took| took.number == 0 || took.number > 13);
  let rust = if checked { timed(call, Side::Rust, GIVEN_UP) } else { None };
  let rust = rust.filter(|took| took.time <= IN_TIME);
  let millis = |took: Option<Took>, otherwise: &str| match took {
    Some(took) => format!("{:.3}", took.time.as_secs_f64() * 1e3),
    None => otherwise.into(),
  };
  let over = format!("> {}", GIVEN_UP.as_millis());
  let (number, count) = port.map_or((0, 0), |took| (took.number, took.count));
  println!(
    "{part:18} {name:56} {number:>2} {count:>5} {:>10} {:>10}",
    millis(port, &over),
    millis(rust, "-")
  );
}

/// Whether the model, if it ends in time, answers another.
fn differs(call: &Call, port: Took) -> bool {
  let model = timed(call, Side::Model, IN_TIME);
  let same =
    |model: Took| (model.number, model.count, model.sum) == (port.number, port.count, port.sum);
  model.is_some_and(|model| !same(model))
}

/// An input by chance that is within document 01's sizes.
fn fitting(rng: &mut Rng, levels: usize) -> Worst {
  loop {
    let worst = adversary::random(rng, levels);
    if adversary::fits(&worst.call) {
      return worst;
    }
  }
}

/// Tries so many inputs by chance, and prints the slowest of each part. Whether all have ended in time.
pub fn by_chance(tries: usize, seed: u64, levels: usize) -> bool {
  let rng = &mut Rng::new(seed);
  let mut slowest: Vec<(Duration, Worst)> = Vec::new();
  for _ in 0..tries {
    let worst = fitting(rng, levels);
    let time = timed(&worst.call, Side::Port, GIVEN_UP).map_or(GIVEN_UP, |took| took.time);
    match slowest.iter_mut().find(|(_, known)| known.part == worst.part) {
      Some(known) if known.0 < time => *known = (time, worst),
      Some(_) => {}
      None => slowest.push((time, worst)),
    }
  }
  println!("\nthe slowest of {tries} inputs by chance (seed {seed})");
  for (time, worst) in &slowest {
    println!("{:18} {:.3} ms: {}", worst.part, time.as_secs_f64() * 1e3, worst.name);
  }
  slowest.iter().all(|(time, _)| *time <= IN_TIME)
}
