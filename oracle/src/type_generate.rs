//! Generates cases of the type table: tables built at random, types met with changed copies of themselves, classes joined in
//! many orders, types moved to and fro, and tables at the limit of their nodes.

use std::collections::HashMap;

use crate::{
  draft,
  layout::Style,
  rng::Rng,
  sheet::kind,
  type_cases::{Step, TypeCase},
  type_run::Run,
};

/// The most children of a node.
const MOST_CHILDREN: usize = 8;
/// Param, Fn and Key ids stay below these.
const PARAMS: usize = 3;
const FREE_IDS: usize = 3;
/// Up to so many nodes a table grows by steps of its own; moves may bring more.
const GROWN: u32 = 24;

/// The case of a seed and an index.
pub fn case(seed: u64, index: u64) -> TypeCase {
  let mut rng = Rng::new(seed ^ index.wrapping_mul(0x1000_0000_01b3));
  let sheet = sheet(&mut rng);
  let words = sheet.words(Style::random(&mut rng), &mut rng);
  let mut maker = Maker { rng, sheet, run: Run::new(words), kinds: Default::default() };
  match index % 100 {
    0..34 => maker.mixed(),
    34..54 => maker.copies(),
    54..68 => maker.rows(),
    68..80 => maker.classes(),
    80..97 => maker.moves(),
    97 => maker.full(),
    98 => maker.overfull(),
    _ => maker.shared(),
  }
  maker.run.make(0, Step::Nodes);
  maker.run.make(1, Step::Nodes);
  maker.run.done()
}

fn sheet(rng: &mut Rng) -> draft::Sheet {
  let definitions = rng.range(1, 3);
  let mut owner = |_| rng.below(definitions) as u32;
  let [opaques, enums] = [2, 2].map(|count| (0..count).map(&mut owner).collect());
  let mut marked = |count| (0..count).map(|id| (rng.below(definitions) as u32, id % 2)).collect();
  draft::Sheet {
    definitions: vec![draft::Definition::default(); definitions],
    opaques,
    structs: marked(3),
    enums,
    unions: marked(2),
    closures: vec![0, 3],
    ..draft::Sheet::default()
  }
}

struct Maker {
  rng: Rng,
  sheet: draft::Sheet,
  run: Run,
  /// The types of each kind that steps have added to each table.
  kinds: [HashMap<u32, Vec<u32>>; 2],
}

impl Maker {
  /// A type of a table that has nodes.
  fn any(&mut self, table: u32) -> u32 {
    self.rng.below(2 * self.run.node_count(table) as usize) as u32
  }

  /// A type, most often upright and of one of the last nodes.
  fn recent(&mut self, table: u32) -> u32 {
    let count = self.run.node_count(table) as usize;
    let node = count - 1 - self.rng.below(count.min(6));
    2 * node as u32 + u32::from(self.rng.chance(25))
  }

  fn some(&mut self, table: u32, most: usize) -> Vec<u32> {
    let count = if self.run.node_count(table) == 0 { 0 } else { self.rng.range(0, most) };
    (0..count)
      .map(|_| if self.rng.chance(50) { self.any(table) } else { self.recent(table) })
      .collect()
  }

  fn unknown(&mut self, table: u32) -> u32 {
    2 * self.run.make(table, Step::Unknown)[0]
  }

  fn add(&mut self, table: u32, kind: u32, id: u32, children: Vec<u32>) -> u32 {
    let inverted = u32::from(self.rng.chance(15));
    let ty = 2 * self.run.make(table, Step::Known { kind, inverted, id, children })[0];
    self.kinds[table as usize].entry(kind).or_default().push(ty);
    ty
  }

  /// A kind with an id, whatever its children.
  fn kind_and_id(&mut self) -> (u32, u32) {
    let kind =
      [kind::PARAM, kind::TUPLE, kind::OPAQUE, kind::STRUCT, kind::ENUM, kind::UNION, kind::FN]
        .into_iter()
        .chain([kind::CLOSURE, kind::REF, kind::KEY, kind::NEVER, kind::DEFAULT, kind::ERROR])
        .nth(self.rng.weighted(&[8, 18, 8, 14, 8, 10, 5, 9, 8, 4, 3, 4, 5]))
        .unwrap();
    let ids = match kind {
      kind::PARAM => PARAMS,
      kind::OPAQUE => self.sheet.opaques.len(),
      kind::STRUCT => self.sheet.structs.len(),
      kind::ENUM => self.sheet.enums.len(),
      kind::UNION => self.sheet.unions.len(),
      kind::FN | kind::KEY => FREE_IDS,
      kind::CLOSURE => self.sheet.closures.len(),
      _ => 1,
    };
    let id = self.rng.below(ids) as u32;
    if matches!(kind, kind::FN | kind::KEY) && id == 2 { (kind, u32::MAX) } else { (kind, id) }
  }

  /// How many children a node of a kind gets.
  fn arity(&mut self, kind: u32) -> usize {
    let few =
      if self.rng.chance(6) { self.rng.range(4, MOST_CHILDREN) } else { self.rng.range(0, 3) };
    match kind {
      kind::TUPLE | kind::OPAQUE | kind::STRUCT | kind::ENUM | kind::UNION => few,
      kind::CLOSURE => few.max(1),
      kind::REF => 1,
      _ => 0,
    }
  }

  /// Adds a node whose children are there already.
  fn grow(&mut self, table: u32) {
    let (kind, id) = self.kind_and_id();
    let arity = self.arity(kind);
    let empty = self.run.node_count(table) == 0;
    if self.rng.chance(25) || (empty && arity > 0) {
      self.unknown(table);
      return;
    }
    let children = (0..arity)
      .map(|_| if self.rng.chance(60) { self.recent(table) } else { self.any(table) })
      .collect();
    self.add(table, kind, id, children);
  }

  fn ask(&mut self, table: u32) {
    let (a, b) = (self.any(table), self.any(table));
    match self.rng.below(3) {
      0 => self.run.make(table, Step::Occurs { var: a, ty: b }),
      1 => self.run.make(table, Step::SelfInverse { ty: a }),
      _ => self.run.make(table, Step::GetMod { ty: a }),
    };
  }

  /// Two types, often of one kind.
  fn pair(&mut self, table: u32) -> (u32, u32) {
    let (kind, _) = self.kind_and_id();
    let alike = self.kinds[table as usize].get(&kind).cloned().unwrap_or_default();
    let count = 2 * self.run.node_count(table);
    if alike.len() > 1 && self.rng.chance(50) {
      let (a, b) = (self.rng.pick(&alike), self.rng.pick(&alike));
      if a < count && b < count {
        return (a, b ^ u32::from(self.rng.chance(25)));
      }
    }
    (self.any(table), if self.rng.chance(50) { self.any(table) } else { self.recent(table) })
  }

  fn unify(&mut self, table: u32) {
    let (a, b) = self.pair(table);
    self.run.make(table, Step::Unify { a, b });
  }

  fn impl_types(&mut self, table: u32) {
    let xs = self.some(table, 4);
    let mut ys = self.some(table, 4);
    if self.rng.chance(75) && self.run.node_count(table) > 0 {
      ys.truncate(xs.len());
      while ys.len() < xs.len() {
        ys.push(self.any(table));
      }
    }
    let a = u32::from(!self.rng.chance(10));
    let b = if self.rng.chance(85) { a } else { self.rng.below(3) as u32 };
    self.run.make(table, Step::UnifyImplType { a, xs, b, ys });
  }

  /// Moves types to the other table, with parameters only where it has a node for them to be.
  fn import(&mut self, table: u32) {
    let types = self.some(table, MOST_CHILDREN);
    let params = (self.run.node_count(1 - table) > 0 && self.rng.chance(60))
      .then(|| (0..PARAMS).map(|_| self.any(1 - table)).collect());
    self.run.make(table, Step::Import { params, types });
  }

  fn export(&mut self, table: u32) {
    let types = self.some(table, MOST_CHILDREN);
    self.run.make(table, Step::Export { types });
  }

  /// Any steps on both tables.
  fn mixed(&mut self) {
    for _ in 0..self.rng.range(4, 10) {
      self.grow(0);
    }
    for _ in 0..self.rng.range(8, 22) {
      let table = u32::from(self.rng.chance(30));
      let count = self.run.node_count(table);
      match self.rng.weighted(&[30, 34, 16, 7, 6, 3, 4]) {
        0 if count < GROWN => self.grow(table),
        1 if count > 0 => self.unify(table),
        2 if count > 0 => self.ask(table),
        3 if count > 0 => self.impl_types(table),
        4 if count < GROWN && self.run.node_count(1 - table) < GROWN => self.import(table),
        5 => self.export(table),
        6 => {
          self.run.make(table, Step::Nodes);
        }
        _ => {}
      }
    }
  }

  /// A type of some levels, over unknowns and earlier types.
  fn tree(&mut self, levels: usize) -> Tree {
    let (kind, id) =
      if levels == 0 && self.rng.chance(60) { (kind::UNKNOWN, 0) } else { self.kind_and_id() };
    let arity = if levels == 0 {
      usize::from(kind == kind::CLOSURE || kind == kind::REF)
    } else {
      self.arity(kind).min(4)
    };
    let children = (0..arity)
      .map(|_| {
        (
          u32::from(self.rng.chance(15)),
          if levels == 0 { Tree::leaf() } else { self.tree(levels - 1) },
        )
      })
      .collect();
    Tree { kind, id, children }
  }

  /// A tree with parts of it changed: for unknowns, for other types, with children less or more.
  fn changed(&mut self, tree: &Tree, percent: usize) -> Tree {
    if self.rng.chance(percent) {
      match self.rng.weighted(&[60, 12, 14, 14]) {
        0 => return Tree::leaf(),
        1 => return Tree { kind: kind::ERROR, id: 0, children: Vec::new() },
        2 => return self.tree(0),
        _ => {}
      }
    }
    let mut children: Vec<_> =
      tree.children.iter().map(|(side, child)| (*side, self.changed(child, percent))).collect();
    if children.len() > 1 && self.rng.chance(percent / 2) {
      children.remove(0);
    }
    Tree { kind: tree.kind, id: tree.id, children }
  }

  /// Adds a tree's nodes, and gives its type; unknowns are new ones or some of those there.
  fn plant(&mut self, tree: &Tree, unknowns: &mut Vec<u32>) -> u32 {
    if tree.kind == kind::UNKNOWN {
      if !unknowns.is_empty() && self.rng.chance(40) {
        return self.rng.pick(unknowns) ^ u32::from(self.rng.chance(15));
      }
      let new = self.unknown(0);
      unknowns.push(new);
      return new;
    }
    let children =
      tree.children.iter().map(|(side, child)| self.plant(child, unknowns) ^ side).collect();
    self.add(0, tree.kind, tree.id, children)
  }

  /// Types met with changed copies of themselves, upright and inverted.
  fn copies(&mut self) {
    let mut unknowns = Vec::new();
    for _ in 0..self.rng.range(1, 3) {
      let levels = self.rng.range(1, 3);
      let tree = self.tree(levels);
      let percent = self.rng.pick(&[0, 8, 25]);
      let copy = self.changed(&tree, percent);
      let a = self.plant(&tree, &mut unknowns);
      let b = self.plant(&copy, &mut unknowns);
      if self.rng.chance(30) {
        self.unify(0);
      }
      let side = u32::from(self.rng.chance(30));
      self.run.make(0, Step::Unify { a, b: b ^ side });
      self.ask(0);
      if self.rng.chance(30) {
        self.run.make(0, Step::Nodes);
      }
    }
  }

  /// Types of many children, of which some meet and others do not.
  fn rows(&mut self) {
    for _ in 0..self.rng.range(1, 3) {
      let kind =
        self.rng.pick(&[kind::TUPLE, kind::STRUCT, kind::ENUM, kind::UNION, kind::CLOSURE]);
      let count = self.rng.range(2, 6);
      let mut rows = [Vec::new(), Vec::new()];
      for _ in 0..count {
        let pair = self.meeting();
        rows[0].push(pair.0);
        rows[1].push(pair.1);
      }
      if self.rng.chance(15) {
        rows[0].remove(0);
      }
      let [xs, ys] = rows;
      let id = u32::from(kind != kind::TUPLE);
      let (a, b) = (self.add(0, kind, id, xs), self.add(0, kind, id, ys));
      let b = b ^ u32::from(self.rng.chance(25));
      self.run.make(0, Step::Unify { a, b });
      self.ask(0);
      if self.rng.chance(50) {
        self.run.make(0, Step::Nodes);
      }
    }
  }

  /// Two types: they meet, one is Error, or they do not.
  fn meeting(&mut self) -> (u32, u32) {
    let (kind, id) =
      self.rng.pick(&[(kind::NEVER, 0), (kind::KEY, 1), (kind::DEFAULT, 0), (kind::STRUCT, 1)]);
    let known = self.add(0, kind, id, vec![]);
    let other = match self.rng.weighted(&[50, 20, 10, 20]) {
      0 => self.unknown(0),
      1 => self.add(0, kind, id, vec![]),
      2 => self.add(0, kind::ERROR, 0, vec![]),
      _ => self.add(0, kind::FN, id, vec![]),
    };
    let side = u32::from(self.rng.chance(15));
    if self.rng.chance(50) { (known, other ^ side) } else { (other ^ side, known) }
  }

  /// Unknowns joined to classes of all sizes, ties among them, and a known type or two.
  fn classes(&mut self) {
    for _ in 0..self.rng.range(4, 12) {
      self.unknown(0);
    }
    for _ in 0..self.rng.range(0, 3) {
      self.grow(0);
    }
    if self.rng.chance(60) {
      self.tournament();
    }
    for _ in 0..self.rng.range(4, 14) {
      self.unify(0);
      if self.rng.chance(15) {
        self.ask(0);
      }
    }
  }

  /// Classes of one size, joined two by two.
  fn tournament(&mut self) {
    let mut row: Vec<u32> = (0..self.rng.range(4, 8)).map(|_| self.unknown(0)).collect();
    while row.len() > 1 {
      for pair in row.chunks(2).filter(|pair| pair.len() == 2) {
        let [a, b] = [pair[0], pair[1]].map(|ty| ty ^ u32::from(self.rng.chance(30)));
        self.run.make(0, Step::Unify { a, b });
      }
      row = row.into_iter().step_by(2).collect();
    }
  }

  /// Types moved from one table to the other and back, joined on the way.
  fn moves(&mut self) {
    for _ in 0..self.rng.range(3, 10) {
      self.grow(0);
    }
    for _ in 0..self.rng.range(0, 4) {
      self.grow(1);
    }
    for _ in 0..self.rng.range(2, 6) {
      let table = u32::from(self.rng.chance(40));
      if self.rng.chance(60) && self.run.node_count(table) > 0 {
        self.unify(table);
      }
      if self.rng.chance(25) {
        self.export(table);
      } else if self.run.node_count(1 - table) < 2 * GROWN {
        self.import(table);
      }
    }
  }

  /// A table of as many nodes as there may be.
  fn full(&mut self) {
    for _ in 0..150 {
      self.unknown(0);
    }
    while self.run.node_count(0) < 256 {
      self.grow(0);
    }
    self.unknown(0);
    self.add(0, kind::NEVER, 0, vec![]);
    for _ in 0..30 {
      self.unify(0);
    }
    self.export(0);
  }

  /// Moves that the other table has room for, and one that it has none for.
  fn overfull(&mut self) {
    for _ in 0..self.rng.range(30, 60) {
      self.grow(0);
    }
    for _ in 0..8 {
      let types = (0..8).map(|_| self.any(0)).collect();
      self.run.make(0, Step::Import { params: None, types });
    }
    while self.run.node_count(1) < 240 {
      self.unknown(1);
    }
    let wide: Vec<u32> = (0..8).map(|_| self.unknown(0)).collect();
    for _ in 0..3 {
      self.run.make(0, Step::Import { params: None, types: wide.clone() });
      self.ask(0);
    }
  }

  /// Types that share what is below them, level upon level.
  fn shared(&mut self) {
    let mut below =
      if self.rng.chance(50) { self.unknown(0) } else { self.add(0, kind::DEFAULT, 0, vec![]) };
    let other = self.unknown(0);
    for _ in 0..self.rng.range(6, 12) {
      below = self.add(0, kind::TUPLE, 0, vec![below, below]);
    }
    self.run.make(0, Step::SelfInverse { ty: below });
    self.run.make(0, Step::Occurs { var: other, ty: below });
    self.run.make(0, Step::Occurs { var: 0, ty: below });
    self.run.make(0, Step::Import { params: None, types: vec![below, below ^ 1, other] });
    self.run.make(0, Step::Unify { a: below, b: below ^ 1 });
    self.run.make(0, Step::Unify { a: other, b: below ^ 1 });
    self.run.make(0, Step::Export { types: vec![below, other] });
  }
}

/// A type to be planted: its kind and id, and its children with the side that each is on.
struct Tree {
  kind: u32,
  id: u32,
  children: Vec<(u32, Tree)>,
}

impl Tree {
  fn leaf() -> Tree {
    Tree { kind: kind::UNKNOWN, id: 0, children: Vec::new() }
  }
}
