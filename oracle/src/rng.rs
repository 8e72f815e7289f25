//! A seeded source of numbers (splitmix64), the same everywhere.

#[derive(Debug, Clone)]
pub struct Rng(u64);

impl Rng {
  pub fn new(seed: u64) -> Rng {
    Rng(seed)
  }

  fn next(&mut self) -> u64 {
    self.0 = self.0.wrapping_add(0x9e37_79b9_7f4a_7c15);
    let mut z = self.0;
    z = (z ^ (z >> 30)).wrapping_mul(0xbf58_476d_1ce4_e5b9);
    z = (z ^ (z >> 27)).wrapping_mul(0x94d0_49bb_1331_11eb);
    z ^ (z >> 31)
  }

  /// A number below `most`, which is not 0.
  pub fn below(&mut self, most: usize) -> usize {
    (self.next() % most as u64) as usize
  }

  /// A number from `least` to `most`, both among them.
  pub fn range(&mut self, least: usize, most: usize) -> usize {
    least + self.below(most - least + 1)
  }

  /// Whether an event of so many percent occurs.
  pub fn chance(&mut self, percent: usize) -> bool {
    self.below(100) < percent
  }

  pub fn pick<T: Clone>(&mut self, from: &[T]) -> T {
    from[self.below(from.len())].clone()
  }

  /// The place of one of the weights, by weight.
  pub fn weighted(&mut self, weights: &[usize]) -> usize {
    let mut left = self.below(weights.iter().sum());
    for (place, &weight) in weights.iter().enumerate() {
      if left < weight {
        return place;
      }
      left -= weight;
    }
    unreachable!("a number below the sum of the weights")
  }

  pub fn shuffle<T>(&mut self, items: &mut [T]) {
    for end in (1..items.len()).rev() {
      items.swap(end, self.below(end + 1));
    }
  }
}
