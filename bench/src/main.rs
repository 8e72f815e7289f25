//! `bench`: the port and the Rust on the same calls, class by class, in one process; each side reads the sheet's words, makes
//! chart and candidate sets of them, and answers. Then the worst inputs for each part of a call, which `--worst` prints alone,
//! and the stack that the deepest searches take.

use std::{
  env, hint,
  process::{Command, ExitCode, Stdio},
  thread,
  time::{Duration, Instant},
};

use bench::{Buffers, ask, classes, stack, worst};
use oracle::{case::Answer, case::Call, model, rust};
use vine_finder::{ANSWER_WORDS, workspace_words};

const STEPS: u32 = rust::STEPS_LIMIT;
/// How long each side of a class is timed, at least.
const TIMED: Duration = Duration::from_millis(400);
/// How many levels the joins of the worst inputs have, and how many inputs are tried by chance, where nothing is said.
const WORST_LEVELS: usize = 120;
const WORST_TRIES: usize = 100;
/// The stack in which the deepest searches are to run, besides the workspace.
const STACK: usize = 512 << 10;

fn main() -> ExitCode {
  let args: Vec<String> = env::args().skip(1).collect();
  match args.iter().map(String::as_str).collect::<Vec<_>>()[..] {
    [] => bench(),
    ["stack", size] => on_a_stack(size.parse().unwrap()),
    ["once", side] => {
      worst::once(side);
      ExitCode::SUCCESS
    }
    ["--worst", ref rest @ ..] => worst_alone(rest),
    ["--searches"] => {
      if worst::searches_end() {
        ExitCode::SUCCESS
      } else {
        ExitCode::FAILURE
      }
    }
    _ => {
      eprintln!("usage: bench [--searches | --worst [LEVELS] [TRIES] [SEED]]");
      ExitCode::FAILURE
    }
  }
}

/// The worst inputs alone, and a search by chance for worse ones. It fails if one takes more than a second.
fn worst_alone(args: &[&str]) -> ExitCode {
  let number =
    |place: usize, otherwise| args.get(place).map_or(otherwise, |arg| arg.parse().unwrap());
  let levels = number(0, WORST_LEVELS);
  let listed = worst::table(levels);
  let by_chance = worst::by_chance(number(1, WORST_TRIES), number(2, 1) as u64, levels);
  if listed && by_chance { ExitCode::SUCCESS } else { ExitCode::FAILURE }
}

fn bench() -> ExitCode {
  rust::quiet_panics();
  // The Rust recurses deeply on some classes.
  let timing = thread::Builder::new().stack_size(256 << 20).spawn(time_all).unwrap();
  let agreed = timing.join().unwrap();
  println!();
  worst::table(WORST_LEVELS);
  println!();
  let ran = stacks();
  if agreed && ran { ExitCode::SUCCESS } else { ExitCode::FAILURE }
}

/// Times all classes, and says whether port and Rust agree on them.
fn time_all() -> bool {
  let mut answer = vec![0; ANSWER_WORDS];
  let mut workspace = vec![1; workspace_words()];
  let clearing = median(|| hint::black_box(&mut workspace).fill(0));
  println!(
    "the floor: clearing the workspace of {} words {:.1} µs",
    workspace.len(),
    micros(clearing)
  );
  let refused = Call { sheet: vec![0; 16], ..classes::all()[0].calls[0].clone() };
  let floor = median(|| ask(&refused, &mut answer, &mut workspace));
  println!("the floor: a call refused 6 {:.1} µs\n", micros(floor));
  println!("{:34} {:>6} {:>10} {:>10} {:>10}", "class", "steps", "port µs", "Rust µs", "Rust/port");
  let mut agreed = true;
  for class in classes::all() {
    let steps: u32 = class.calls.iter().map(|call| agree(call, &mut agreed)).sum();
    let port = median(|| {
      class.calls.iter().for_each(|call| {
        hint::black_box(ask(call, &mut answer, &mut workspace));
      })
    });
    let rust = median(|| {
      class.calls.iter().for_each(|call| {
        hint::black_box(rust::call(call, STEPS));
      })
    });
    let ratio = rust.as_secs_f64() / port.as_secs_f64();
    println!(
      "{:34} {steps:>6} {:>10.1} {:>10.1} {ratio:>10.2}",
      class.name,
      micros(port),
      micros(rust)
    );
  }
  agreed
}

fn micros(time: Duration) -> f64 {
  time.as_secs_f64() * 1e6
}

/// The steps of a call, and whether port, model and Rust agree on it.
fn agree(call: &Call, agreed: &mut bool) -> u32 {
  let (given, wrong) = Buffers::default().run(call);
  let expected = match model::call(call, STEPS) {
    limit if model::is_limit(&limit) => limit,
    _ => match rust::call(call, STEPS) {
      Answer::Assert(count, words) => Answer::Ok(count, words),
      answer => answer,
    },
  };
  if given != expected || wrong.is_some() {
    let [expected, given] = [&expected, &given].map(|answer| shortened(&answer.to_string()));
    println!("a difference: the Rust {expected}; the port {given} {}", wrong.unwrap_or_default());
    *agreed = false;
  }
  match expected {
    Answer::Ok(count, _) | Answer::No(_, count) => count - call.count,
    _ => 0,
  }
}

fn shortened(text: &str) -> String {
  text.chars().take(60).collect()
}

/// The median time of some runs.
fn median<T>(mut run: impl FnMut() -> T) -> Duration {
  hint::black_box(run());
  let begun = Instant::now();
  let mut times = Vec::new();
  while begun.elapsed() < TIMED || times.len() < 5 {
    let started = Instant::now();
    hint::black_box(run());
    times.push(started.elapsed());
  }
  times.sort();
  times[times.len() / 2]
}

/// Runs every class and every stored case at the limits in a thread with so much stack.
fn on_a_stack(bytes: usize) -> ExitCode {
  let mut answer = vec![0; ANSWER_WORDS];
  let mut workspace = vec![0; workspace_words()];
  let run = move || {
    for (_, call) in deepest() {
      hint::black_box(ask(&call, &mut answer, &mut workspace));
    }
  };
  let ran = thread::Builder::new().stack_size(bytes).spawn(run).unwrap().join();
  if ran.is_ok() { ExitCode::SUCCESS } else { ExitCode::FAILURE }
}

/// The calls of all classes, and the stored ones at the limits, with their names.
fn deepest() -> Vec<(String, Call)> {
  let named = |class: classes::Class| class.calls.into_iter().map(move |c| (class.name.into(), c));
  let mut calls: Vec<_> = classes::all().into_iter().flat_map(named).collect();
  calls.extend(classes::at_the_limits());
  calls
}

/// Says how much stack the deepest searches take, and whether they run in a thread with as much as is asked for.
fn stacks() -> bool {
  let calls = deepest();
  let used = stack::used_by(calls.iter().map(|(_, call)| call.clone()).collect());
  let mut by_use: Vec<_> = used.into_iter().zip(&calls).collect();
  by_use.sort_by_key(|(used, _)| std::cmp::Reverse(*used));
  for (used, (name, _)) in by_use.iter().take(5) {
    println!("{:>8.1} KiB of stack: {name}", *used as f64 / 1024.0);
  }
  let run = Command::new(env::current_exe().unwrap())
    .args(["stack", &STACK.to_string()])
    .stderr(Stdio::null())
    .status();
  let ran = run.is_ok_and(|status| status.success());
  let how = if ran { "run" } else { "do NOT run" };
  println!("the calls at the limits {how} in a thread with {} KiB of stack", STACK >> 10);
  ran
}
