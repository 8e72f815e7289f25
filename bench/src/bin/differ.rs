//! `differ [COUNT] [SEED] [DAMAGED]`: COUNT cases of the oracle's generator, DAMAGED percent of them damaged, by the port and
//! by the Rust with the model's limits. It compares number, count, answer words, and what the buffers hold after, and fails
//! at any difference. Where the Rust does not end in time, the model answers alone.
//!
//! `differ --sittings [COUNT] [SEED]`: COUNT sittings of the oracle's generator, each by one sitting of the port and by one
//! `Finder` of the Rust, whose steps go on. It compares the same after every call.

use std::{env, process::ExitCode};

use bench::Buffers;
use oracle::{
  answers::{self, Options},
  case::Case,
  damage, generate, sitting_generate,
  sittings::{self, BETWEEN, Sitting},
  tally::Tally,
  worker::{self, Worker},
};

const MOST_SHOWN: usize = 20;

fn main() -> ExitCode {
  let mut args: Vec<String> = env::args().skip(1).collect();
  if args.first().is_some_and(|first| first == "worker") {
    return serve(args);
  }
  let seated = answers::take_flag(&mut args, "--sittings");
  let numbers = Vec::from_iter(args.iter().map(|arg| arg.parse::<u64>()));
  if numbers.len() > if seated { 2 } else { 3 } || numbers.iter().any(Result::is_err) {
    eprintln!("usage: differ [COUNT] [SEED] [DAMAGED PERCENT]");
    eprintln!("       differ --sittings [COUNT] [SEED]");
    return ExitCode::FAILURE;
  }
  let number = |place: usize, otherwise| match numbers.get(place) {
    Some(Ok(number)) => *number,
    _ => otherwise,
  };
  let (count, seed, damaged) = (number(0, 5_000), number(1, 1), number(2, 20));
  let differences = if seated { run_sittings(count, seed) } else { run(count, seed, damaged) };
  if differences == 0 { ExitCode::SUCCESS } else { ExitCode::FAILURE }
}

/// Document 01's limits and the port's workspace.
fn limits() -> Options {
  Options { limits: true, work: vine_finder::workspace_words() as u32, ..Options::default() }
}

/// The child's side of the oracle's worker.
fn serve(mut args: Vec<String>) -> ExitCode {
  args.remove(0);
  let served = Options::take(&mut args).map(|options| worker::serve(&options));
  if matches!(served, Ok(Ok(()))) { ExitCode::SUCCESS } else { ExitCode::FAILURE }
}

/// Runs the cases, and says how many differ.
fn run(count: u64, seed: u64, damaged: u64) -> usize {
  let options = limits();
  let mut worker = Worker::new(&options);
  let mut buffers = Buffers::default();
  let mut tally = Tally::default();
  let (mut cases, mut differences, mut index) = (0, 0, 0);
  while cases < count {
    let case = generated(seed, index, damaged, options.work);
    index += 1;
    let Case::Call(call) = &case else { continue };
    cases += 1;
    let said = expected(&mut worker, &case, &options);
    tally.add(&said);
    let (given, wrong) = buffers.run(call);
    let given = given.to_string();
    if given != said.replacen("assert ", "ok ", 1) || wrong.is_some() {
      differences += 1;
      if differences <= MOST_SHOWN {
        println!("{case}\n  the Rust: {said}\n  the port: {given}");
        wrong.iter().for_each(|wrong| println!("  {wrong}"));
      }
    }
  }
  println!("{tally}");
  println!("differ: {cases} cases (seed {seed}, {damaged} % damaged), {differences} differences");
  differences
}

fn generated(seed: u64, index: u64, damaged: u64, work: u32) -> Case {
  if index * damaged % 100 < damaged {
    damage::case(seed, index, work)
  } else {
    generate::case(seed, index)
  }
}

/// What document 01 gives: the Rust's answer with the model's limits, or the model's alone where the Rust does not end.
fn expected(worker: &mut Worker, case: &Case, options: &Options) -> String {
  match worker.answer(&case.to_string()) {
    Ok(said) if said != "timeout" => said,
    Ok(_) => answers::of_document(case, options).to_string(),
    Err(why) => format!("error {why}"),
  }
}

/// Runs the sittings, and says how many calls differ.
fn run_sittings(count: u64, seed: u64) -> usize {
  let options = limits();
  let mut worker = Worker::new(&options);
  let mut buffers = Buffers::default();
  let mut tally = Tally::default();
  let (mut calls, mut differences, mut alone) = (0, 0, 0);
  for index in 0..count {
    let asked = sitting_generate::sitting(seed, index);
    let said = expected_in_turn(&mut worker, &asked, &options, &mut alone);
    let mut sitting = vine_finder::Sitting { spent: asked.count };
    for (n, question) in asked.questions.iter().enumerate() {
      let said = said.get(n).map_or("no answer", String::as_str);
      tally.add(said);
      calls += 1;
      let (given, wrong) = buffers.run_in(&mut sitting, &asked.call(question, 0));
      let given = given.to_string();
      if given != said.replacen("assert ", "ok ", 1) || wrong.is_some() {
        differences += 1;
        if differences <= MOST_SHOWN {
          println!("{asked}\n  call {n}\n  the Rust: {said}\n  the port: {given}");
          wrong.iter().for_each(|wrong| println!("  {wrong}"));
        }
      }
    }
  }
  println!("{tally}");
  println!(
    "differ: {calls} calls in {count} sittings (seed {seed}), {differences} differences; \
     {alone} sittings by the model alone"
  );
  differences
}

/// What document 01 gives in turn: the answers of one `Finder` of the Rust, or the model's alone where that does not end.
fn expected_in_turn(
  worker: &mut Worker,
  sitting: &Sitting,
  options: &Options,
  alone: &mut usize,
) -> Vec<String> {
  match worker.answer(&sitting.to_string()) {
    Ok(said) if said != "timeout" => said.split(BETWEEN).map(Into::into).collect(),
    Ok(_) => {
      *alone += 1;
      sittings::of_document(sitting, options).iter().map(ToString::to_string).collect()
    }
    Err(why) => vec![format!("error {why}")],
  }
}
