//! What a case line is answered with: checks first, then the Rust; the model too where limits 14 to 17 are asked for.

use std::time::Duration;

use crate::{
  case::{Answer, Case},
  checks::{check_call, check_list},
  idx::most_types,
  model, rust,
  sittings::{self, BETWEEN, Sitting},
};

#[derive(Debug, Clone)]
pub struct Options {
  /// The step limit, at most the Rust's own.
  pub limit: u32,
  /// The workspace's constant.
  pub work: u32,
  /// Whether limits 14 to 17 hold, as document 01 has them; the Rust alone has none.
  pub limits: bool,
  /// Whether checks and model answer alone, without the Rust.
  pub model: bool,
  /// Whether the most nodes of a type table are told behind the Rust's answer.
  pub tell_most: bool,
  /// How long one case may take.
  pub timeout: Duration,
}

impl Default for Options {
  fn default() -> Self {
    Options {
      limit: rust::STEPS_LIMIT,
      work: 662_794,
      limits: false,
      model: false,
      tell_most: false,
      timeout: Duration::from_secs(1),
    }
  }
}

impl Options {
  /// Takes the options out of a command's arguments.
  pub fn take(args: &mut Vec<String>) -> Result<Options, String> {
    let mut options = Options {
      limits: take_flag(args, "--limits"),
      model: take_flag(args, "--model"),
      tell_most: take_flag(args, "--max"),
      ..Options::default()
    };
    if let Some(limit) = take_number(args, "--limit")? {
      if limit > u64::from(rust::STEPS_LIMIT) {
        return Err("a limit over 2,000 cannot be had of the Rust".into());
      }
      options.limit = limit as u32;
    }
    if let Some(work) = take_number(args, "--workspace")? {
      options.work = u32::try_from(work).map_err(|_| "a workspace over u32")?;
    }
    if let Some(timeout) = take_number(args, "--timeout-ms")? {
      options.timeout = Duration::from_millis(timeout);
    }
    Ok(options)
  }

  pub fn to_args(&self) -> Vec<String> {
    let mut args =
      vec!["--limit".into(), self.limit.to_string(), "--workspace".into(), self.work.to_string()];
    for (set, name) in
      [(self.limits, "--limits"), (self.model, "--model"), (self.tell_most, "--max")]
    {
      args.extend(set.then(|| name.into()));
    }
    args
  }
}

/// Takes `NAME NUMBER` out of a command's arguments.
pub fn take_number(args: &mut Vec<String>, name: &str) -> Result<Option<u64>, String> {
  let Some(place) = args.iter().position(|arg| arg == name) else { return Ok(None) };
  let value = args.get(place + 1).and_then(|arg| arg.parse().ok());
  let value = value.ok_or(format!("{name} wants a number"))?;
  args.drain(place..place + 2);
  Ok(Some(value))
}

/// Takes `NAME` out of a command's arguments.
pub fn take_flag(args: &mut Vec<String>, name: &str) -> bool {
  let many = args.len();
  args.retain(|arg| arg != name);
  args.len() < many
}

pub fn answer_line(line: &str, options: &Options) -> String {
  if Sitting::is_line(line) {
    return match Sitting::parse(line) {
      Ok(sitting) => sittings::answers(&sitting, options).join(BETWEEN),
      Err(why) => format!("error {why}"),
    };
  }
  match Case::parse(line) {
    Ok(case) => answer(&case, options),
    Err(why) => format!("error {why}"),
  }
}

pub fn answer(case: &Case, options: &Options) -> String {
  if options.model {
    return of_document(case, options).to_string();
  }
  match (refused(case, options.work), options.limits) {
    (Some(refused), _) => refused.to_string(),
    (None, false) if options.tell_most => {
      format!("{} max={}", of_rust(case, options.limit), most_types())
    }
    (None, false) => of_rust(case, options.limit).to_string(),
    (None, true) => of_both(case, options.limit),
  }
}

/// The refusal of checks 1 to 13, if there is one.
pub fn refused(case: &Case, work: u32) -> Option<Answer> {
  match case {
    Case::List(sheet) => {
      check_list(sheet).err().map(|refusal| Answer::List(vec![refusal.number.to_string()]))
    }
    Case::Call(call) => {
      check_call(call, work).err().map(|refusal| Answer::No(refusal.number, call.count))
    }
  }
}

fn of_rust(case: &Case, limit: u32) -> Answer {
  match case {
    Case::List(sheet) => Answer::List(rust::list(sheet)),
    Case::Call(call) => rust::call(call, limit),
  }
}

/// What document 01 gives, by checks and model alone.
pub fn of_document(case: &Case, options: &Options) -> Answer {
  refused(case, options.work).unwrap_or_else(|| of_model(case, options.limit))
}

fn of_model(case: &Case, limit: u32) -> Answer {
  match case {
    Case::List(sheet) => Answer::List(model::list(sheet)),
    Case::Call(call) => model::call(call, limit),
  }
}

/// The model's refusal where a limit is met; else the Rust's answer, which must be the model's.
fn of_both(case: &Case, limit: u32) -> String {
  let modelled = of_model(case, limit);
  if model::is_limit(&modelled) {
    return modelled.to_string();
  }
  let answer = of_rust(case, limit);
  differs(&answer, &modelled).unwrap_or_else(|| answer.to_string())
}

/// What is said where the Rust's answer, just given, is not the model's, or a type table of it has passed 256 nodes.
pub(crate) fn differs(answer: &Answer, modelled: &Answer) -> Option<String> {
  if answer != modelled {
    Some(format!("differ {answer} | {modelled}"))
  } else if !matches!(answer, Answer::List(_)) && most_types() > model::MOST_NODES {
    Some(format!("differ {answer} | no 14: a type table has {} nodes", most_types()))
  } else {
    None
  }
}
