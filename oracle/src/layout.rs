//! Chains of records laid out as words, in the many ways that document 01 allows: shared records and tails, records that
//! overlap, heads that point backwards, gaps.

use std::collections::HashMap;

use crate::rng::Rng;

/// The words of a record after its next.
pub type Fields = Vec<Field>;

#[derive(Debug, Clone)]
pub enum Field {
  Word(u32),
  Head(Vec<Fields>),
}

impl From<u32> for Field {
  fn from(word: u32) -> Field {
    Field::Word(word)
  }
}

#[derive(Debug, Clone, Copy)]
pub struct Style {
  /// Equal records with equal tails stand once.
  pub share: bool,
  /// A record may stand where its words already are.
  pub overlap: bool,
  /// Records stand in a random order, as far as the chain rule allows.
  pub shuffle: bool,
  /// Percent of records with words between them and the next.
  pub gaps: usize,
}

impl Style {
  pub const PLAIN: Style = Style { share: false, overlap: false, shuffle: false, gaps: 0 };

  pub fn random(rng: &mut Rng) -> Style {
    if rng.chance(40) {
      return Style::PLAIN;
    }
    let gaps = if rng.chance(30) { rng.range(5, 30) } else { 0 };
    Style { share: rng.chance(50), overlap: rng.chance(50), shuffle: rng.chance(60), gaps }
  }
}

/// A record whose tail and inner chains are records too.
struct Cell {
  fields: Vec<Slot>,
  next: Option<usize>,
}

#[derive(Debug, Clone, PartialEq, Eq, Hash)]
enum Slot {
  Word(u32),
  Head(Option<usize>),
}

/// The words of a slice that begins with these header words.
pub fn lay_out(header: &[Field], style: Style, rng: &mut Rng) -> Vec<u32> {
  let mut cells = Cells { all: Vec::new(), known: HashMap::new(), share: style.share };
  let header: Vec<Slot> = header.iter().map(|field| cells.slot(field)).collect();
  Placing::new(header, cells.all, style, rng).run()
}

struct Cells {
  all: Vec<Cell>,
  known: HashMap<(Vec<Slot>, Option<usize>), usize>,
  share: bool,
}

impl Cells {
  fn slot(&mut self, field: &Field) -> Slot {
    match field {
      Field::Word(word) => Slot::Word(*word),
      Field::Head(chain) => Slot::Head(self.chain(chain)),
    }
  }

  fn chain(&mut self, chain: &[Fields]) -> Option<usize> {
    let mut next = None;
    for fields in chain.iter().rev() {
      let fields: Vec<Slot> = fields.iter().map(|field| self.slot(field)).collect();
      next = Some(self.cell(fields, next));
    }
    next
  }

  fn cell(&mut self, fields: Vec<Slot>, next: Option<usize>) -> usize {
    let key = (fields.clone(), next);
    if let (true, Some(&cell)) = (self.share, self.known.get(&key)) {
      return cell;
    }
    self.all.push(Cell { fields, next });
    self.known.insert(key, self.all.len() - 1);
    self.all.len() - 1
  }
}

/// Cells are placed from the end downwards, each after its tail.
struct Placing<'a> {
  header: Vec<Slot>,
  cells: Vec<Cell>,
  style: Style,
  rng: &'a mut Rng,
  places: Vec<Option<usize>>,
  /// The words so far; nothing where a word is not settled yet.
  words: Vec<Option<u32>>,
  low: usize,
}

impl<'a> Placing<'a> {
  fn new(header: Vec<Slot>, cells: Vec<Cell>, style: Style, rng: &'a mut Rng) -> Self {
    let mut length = header.len();
    let mut gap = 0;
    for cell in &cells {
      length += cell.fields.len() + 1;
      gap += usize::from(rng.chance(style.gaps)) * rng.range(1, 3);
    }
    length += gap;
    let places = vec![None; cells.len()];
    Placing { header, cells, style, rng, places, words: vec![None; length], low: length }
  }

  fn run(mut self) -> Vec<u32> {
    // Creation puts a tail before its record, so the order of creation is one in which cells may be placed.
    let mut waiting: Vec<usize> = (0..self.cells.len()).collect();
    while !waiting.is_empty() {
      let ready =
        |cell: usize| self.cells[cell].next.is_none_or(|next| self.places[next].is_some());
      let choice = if self.style.shuffle {
        let choices: Vec<usize> = (0..waiting.len()).filter(|&n| ready(waiting[n])).collect();
        self.rng.pick(&choices)
      } else {
        0
      };
      let cell = waiting.remove(choice);
      self.place(cell);
    }
    self.settle()
  }

  fn head(&self, cell: Option<usize>) -> Option<u32> {
    match cell {
      None => Some(0),
      Some(cell) => self.places[cell].map(|place| place as u32),
    }
  }

  fn place(&mut self, cell: usize) {
    let Cell { fields, next } = &self.cells[cell];
    let next = self.head(*next);
    let words: Vec<Option<u32>> = std::iter::once(next)
      .chain(fields.iter().map(|slot| match slot {
        Slot::Word(word) => Some(*word),
        Slot::Head(cell) => self.head(*cell),
      }))
      .collect();
    if self.style.overlap
      && words.iter().all(Option::is_some)
      && let Some(place) = self.standing(&words)
    {
      self.places[cell] = Some(place);
      return;
    }
    let spare = self.low - self.header.len() - self.unplaced_words();
    if spare > 0 && self.rng.chance(self.style.gaps) {
      self.low -= self.rng.range(1, spare.min(3));
    }
    self.low -= words.len();
    self.words[self.low..self.low + words.len()].clone_from_slice(&words);
    self.places[cell] = Some(self.low);
  }

  fn unplaced_words(&self) -> usize {
    let unplaced = |cell: &usize| self.places[*cell].is_none();
    (0..self.cells.len()).filter(unplaced).map(|cell| self.cells[cell].fields.len() + 1).sum()
  }

  /// A place where these words already stand, below their next.
  fn standing(&mut self, words: &[Option<u32>]) -> Option<usize> {
    let next = words[0].unwrap() as usize;
    let end = if next == 0 { self.words.len() } else { next };
    let places: Vec<usize> = (self.header.len()..end.saturating_sub(words.len() - 1))
      .filter(|&place| self.words[place..place + words.len()] == *words)
      .collect();
    (!places.is_empty()).then(|| self.rng.pick(&places))
  }

  /// Fills in the heads that were not known yet, and the gaps.
  fn settle(mut self) -> Vec<u32> {
    for cell in 0..self.cells.len() {
      let place = self.places[cell].unwrap();
      for n in 0..self.cells[cell].fields.len() {
        if let Slot::Head(inner) = self.cells[cell].fields[n] {
          self.words[place + 1 + n] = self.head(inner);
        }
      }
    }
    for n in 0..self.header.len() {
      self.words[n] = match self.header[n] {
        Slot::Word(word) => Some(word),
        Slot::Head(cell) => self.head(cell),
      };
    }
    let mut gap = || self.rng.below(70) as u32;
    self.words.iter().map(|word| word.unwrap_or_else(&mut gap)).collect()
  }
}
