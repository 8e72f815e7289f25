//! The oracle's commands.

use std::{
  env,
  io::{self, BufRead, BufWriter, Write},
  path::Path,
  process::ExitCode,
};

use oracle::{
  SOURCES,
  answers::{self, Options, take_flag, take_number},
  damage, generate, samples, sitting_generate, sitting_stored,
  sittings::{self, BETWEEN},
  stored,
  tally::Tally,
  worker,
};

const USAGE: &str = "\
oracle [--limits | --model] [--stats] answers the case lines on standard input
oracle gen [--seed N] [--count K] [--damaged PERCENT] [--sittings]
                                     prints case lines, and how often each outcome occurred;
                                     or lines of sittings, several calls in turn
oracle source FILE                   prints a file of docs/src/vine/src as it is compiled here
oracle stored make|check DIRECTORY   makes the stored list, or compares it with what is said today;
oracle stored sittings DIRECTORY     makes its sittings alone
oracle samples make|check DIRECTORY  the same for what `ask` is to print for the samples
options: --limit L (step limit, at most 2000), --workspace W (the constant), --timeout-ms T,
         --max (tells the most nodes of a type table behind the Rust's answer)";

fn main() -> ExitCode {
  let args: Vec<String> = env::args().skip(1).collect();
  match run(args) {
    Ok(()) => ExitCode::SUCCESS,
    Err(why) => {
      eprintln!("oracle: {why}");
      ExitCode::FAILURE
    }
  }
}

fn run(mut args: Vec<String>) -> Result<(), String> {
  let options = Options::take(&mut args)?;
  let told = |e: io::Error| e.to_string();
  match args.first().map(String::as_str) {
    Some("gen") => {
      let from = Generated::take(&mut args)?;
      nothing_left(&args[1..])?;
      generate_all(&from, &options).map_err(told)
    }
    Some("stored") => match &args[1..] {
      [make, directory] if make == "make" => {
        stored::make(Path::new(directory), &options).map_err(told)
      }
      [sittings, directory] if sittings == "sittings" => {
        sitting_stored::make(Path::new(directory), &options).map_err(told)
      }
      [check, directory] if check == "check" => {
        stored::check(Path::new(directory), &options).map(|tally| println!("{tally}"))
      }
      _ => Err(USAGE.into()),
    },
    Some("samples") => match &args[1..] {
      [make, directory] if make == "make" || make == "check" => {
        let many = samples::each(Path::new(directory), &options, make == "make")?;
        println!("{many} samples");
        Ok(())
      }
      _ => Err(USAGE.into()),
    },
    Some("source") => {
      let source = SOURCES.iter().find(|(file, _)| args[1..] == [*file]).ok_or(USAGE)?;
      io::stdout().write_all(source.1.as_bytes()).map_err(told)
    }
    Some("worker") => worker::serve(&options).map_err(told),
    _ => {
      let stats = take_flag(&mut args, "--stats");
      nothing_left(&args)?;
      answer_all(&options, stats).map_err(told)
    }
  }
}

fn nothing_left(args: &[String]) -> Result<(), String> {
  if args.is_empty() { Ok(()) } else { Err(format!("{}?\n{USAGE}", args.join(" "))) }
}

/// Answers case lines, one to a line.
fn answer_all(options: &Options, stats: bool) -> io::Result<()> {
  let mut worker = worker::Worker::new(options);
  let mut tally = Tally::default();
  let mut out = BufWriter::new(io::stdout().lock());
  for line in io::stdin().lock().lines() {
    let answer = worker.answer(&line?)?;
    answer.split(BETWEEN).for_each(|answer| tally.add(answer));
    writeln!(out, "{answer}")?;
  }
  out.flush()?;
  if stats {
    eprintln!("{tally}");
  }
  Ok(())
}

/// What to generate.
struct Generated {
  seed: u64,
  count: u64,
  damaged: u64,
  sittings: bool,
}

impl Generated {
  fn take(args: &mut Vec<String>) -> Result<Generated, String> {
    let sittings = take_flag(args, "--sittings");
    let mut number = |name, otherwise| take_number(args, name).map(|n| n.unwrap_or(otherwise));
    Ok(Generated {
      seed: number("--seed", 1)?,
      count: number("--count", 1_000)?,
      damaged: number("--damaged", 0)?,
      sittings,
    })
  }
}

/// Prints generated case lines, and then what document 01 gives for them, by checks and model.
fn generate_all(from: &Generated, options: &Options) -> io::Result<()> {
  let mut tally = Tally::default();
  let mut out = BufWriter::new(io::stdout().lock());
  for index in 0..from.count {
    if from.sittings {
      let sitting = sitting_generate::sitting(from.seed, index);
      writeln!(out, "{sitting}")?;
      let answers = sittings::of_document(&sitting, options);
      answers.iter().for_each(|answer| tally.add(&answer.to_string()));
      continue;
    }
    let case = if index * from.damaged % 100 < from.damaged {
      damage::case(from.seed, index, options.work)
    } else {
      generate::case(from.seed, index)
    };
    writeln!(out, "{case}")?;
    tally.add(&answers::of_document(&case, options).to_string());
  }
  out.flush()?;
  eprintln!("{tally}");
  Ok(())
}
