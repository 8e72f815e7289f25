//! How much stack a call takes: the words below the caller's frame are painted before it, and looked at after it.

use std::{hint, ptr, thread};

use oracle::case::Call;
use vine_finder::{ANSWER_WORDS, workspace_words};

use crate::ask;

/// The stack of the thread that is painted, and how much of it; what is nearest to the frame that paints is left out.
const STACK: usize = 8 << 20;
const PAINTED: usize = 4 << 20;
const NEAR: usize = 4 << 10;
const PAINT: u64 = 0x5a5a_a5a5_5a5a_a5a5;

/// The most bytes of stack that each of some calls takes, to within 4 KiB.
pub fn used_by(calls: Vec<Call>) -> Vec<usize> {
  let measure = move || {
    let mut answer = vec![0; ANSWER_WORDS];
    let mut workspace = vec![0; workspace_words()];
    let run = |call: &Call| used(|| _ = hint::black_box(ask(call, &mut answer, &mut workspace)));
    calls.iter().map(run).collect()
  };
  thread::Builder::new().stack_size(STACK).spawn(measure).unwrap().join().unwrap()
}

#[inline(never)]
fn used(run: impl FnOnce()) -> usize {
  let here = 0u64;
  let top = hint::black_box(ptr::from_ref(&here)) as usize / 8 * 8;
  let low = top - PAINTED;
  paint(low, top - NEAR);
  run();
  // The stack grows down: the lowest word that was written is the end of the deepest frame.
  let words = (low..top - NEAR).step_by(8);
  // These words are of this thread's own stack, which is mapped whole.
  let lowest =
    words.into_iter().find(|&at| unsafe { ptr::read_volatile(at as *const u64) } != PAINT);
  top - lowest.unwrap_or(top - NEAR)
}

#[inline(never)]
fn paint(low: usize, high: usize) {
  for at in (low..high).step_by(8) {
    // Below every frame in use, but for this function's own, which is within NEAR.
    unsafe { ptr::write_volatile(at as *mut u64, PAINT) }
  }
}
