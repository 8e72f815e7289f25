//! Answers case lines in a child process, so that a case that does not end in time can be given up.

use std::{
  fs,
  io::{self, BufRead, BufReader, BufWriter, Write},
  panic,
  process::{Child, ChildStdin, Command, Stdio},
  sync::mpsc::{self, Receiver, RecvTimeoutError},
  thread,
  time::{Duration, Instant},
};

use crate::{
  answers::{self, Options},
  rust,
};

const STACK: usize = 256 << 20;
const MOST_MEMORY: u64 = 2 << 30;
const LOOK: Duration = Duration::from_millis(50);

/// The child's side: a line in, an answer out, until the input ends.
pub fn serve(options: &Options) -> io::Result<()> {
  rust::quiet_panics();
  let options = options.clone();
  let answering = move || {
    let mut out = io::stdout().lock();
    for line in io::stdin().lock().lines() {
      let line = line?;
      let answer = panic::catch_unwind(|| answers::answer_line(&line, &options))
        .unwrap_or_else(|payload| format!("crash {}", rust::message(&*payload)));
      writeln!(out, "{answer}")?;
      out.flush()?;
    }
    Ok(())
  };
  thread::Builder::new().stack_size(STACK).spawn(answering)?.join().unwrap()
}

/// A child that answers lines, started anew whenever a line had to be given up.
pub struct Worker {
  options: Options,
  running: Option<Running>,
}

struct Running {
  child: Child,
  lines: BufWriter<ChildStdin>,
  answers: Receiver<String>,
}

impl Worker {
  pub fn new(options: &Options) -> Worker {
    Worker { options: options.clone(), running: None }
  }

  /// The answer to a line; `timeout` where it takes too long or too much memory.
  pub fn answer(&mut self, line: &str) -> io::Result<String> {
    let mut running = match self.running.take() {
      Some(running) => running,
      None => start(&self.options)?,
    };
    writeln!(running.lines, "{line}")?;
    running.lines.flush()?;
    match wait(&running, self.options.timeout) {
      Ended::Answered(answer) => {
        self.running = Some(running);
        Ok(answer)
      }
      Ended::GivenUp => {
        running.end();
        Ok("timeout".into())
      }
      Ended::Died => {
        running.end();
        Ok("crash the worker ended".into())
      }
    }
  }
}

impl Running {
  fn end(&mut self) {
    let _ = self.child.kill();
    let _ = self.child.wait();
  }
}

impl Drop for Worker {
  fn drop(&mut self) {
    if let Some(mut running) = self.running.take() {
      running.end();
    }
  }
}

fn start(options: &Options) -> io::Result<Running> {
  let mut child = Command::new(std::env::current_exe()?)
    .arg("worker")
    .args(options.to_args())
    .stdin(Stdio::piped())
    .stdout(Stdio::piped())
    .spawn()?;
  let lines = BufWriter::new(child.stdin.take().unwrap());
  let out = BufReader::new(child.stdout.take().unwrap());
  let (send, answers) = mpsc::channel();
  thread::spawn(move || {
    for answer in out.lines().map_while(Result::ok) {
      if send.send(answer).is_err() {
        break;
      }
    }
  });
  Ok(Running { child, lines, answers })
}

enum Ended {
  Answered(String),
  /// It took too long, or too much memory.
  GivenUp,
  Died,
}

fn wait(running: &Running, timeout: Duration) -> Ended {
  let begun = Instant::now();
  loop {
    match running.answers.recv_timeout(LOOK.min(timeout)) {
      Ok(answer) => return Ended::Answered(answer),
      Err(RecvTimeoutError::Disconnected) => return Ended::Died,
      Err(RecvTimeoutError::Timeout) => {}
    }
    if begun.elapsed() >= timeout || memory(running.child.id()) > MOST_MEMORY {
      return Ended::GivenUp;
    }
  }
}

/// The memory that a process holds, in bytes; 0 where that is not told.
fn memory(id: u32) -> u64 {
  let pages = fs::read_to_string(format!("/proc/{id}/statm"))
    .ok()
    .and_then(|text| text.split_ascii_whitespace().nth(1)?.parse::<u64>().ok());
  pages.unwrap_or(0) * 4096
}
