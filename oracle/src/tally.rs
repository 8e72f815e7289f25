//! How often each outcome occurred.

use std::{
  collections::BTreeMap,
  fmt::{self, Display},
};

#[derive(Debug, Default)]
pub struct Tally(BTreeMap<String, usize>);

impl Tally {
  /// Counts an answer line.
  pub fn add(&mut self, answer: &str) {
    *self.0.entry(outcome(answer)).or_default() += 1;
  }

  pub fn count(&self, outcome: &str) -> usize {
    self.0.get(outcome).copied().unwrap_or(0)
  }
}

/// The outcome of an answer line: `ok`, a refusal with two digits, `list`, or another first word; `types` stands alone.
pub fn outcome(answer: &str) -> String {
  let mut words = answer.split_ascii_whitespace();
  match (words.next(), words.next()) {
    (Some("no"), Some(number)) => format!("no {number:0>2}"),
    (Some("ok"), Some(_)) => "ok".into(),
    (Some(word @ ("assert" | "timeout" | "crash" | "differ" | "error" | "types")), _) => {
      word.into()
    }
    (Some(number), None) if number.parse::<u32>().is_ok() => format!("list {number:0>2}"),
    _ => "list".into(),
  }
}

impl Display for Tally {
  fn fmt(&self, f: &mut fmt::Formatter<'_>) -> fmt::Result {
    self.0.iter().try_for_each(|(outcome, count)| writeln!(f, "{count:>8} {outcome}"))?;
    write!(f, "{:>8} in all", self.0.values().sum::<usize>())
  }
}
