//! The answer's words, as document 01 lays them out.

use crate::draft::Node;

const HEADER: usize = 6;
const TREE_RECORD: usize = 4;

/// A tree's kinds.
pub mod tree {
  pub const PARAM: u32 = 1;
  pub const DEF: u32 = 2;
  pub const FORK_CLOSURE: u32 = 3;
  pub const DROP_CLOSURE: u32 = 4;
}

#[derive(Debug, Clone, PartialEq, Eq)]
pub struct Tree {
  pub kind: u32,
  pub id: u32,
  pub children: Vec<Tree>,
}

impl Tree {
  pub fn leaf(kind: u32, id: usize) -> Tree {
    Tree { kind, id: id as u32, children: Vec::new() }
  }

  /// How many nodes it has.
  pub fn size(&self) -> usize {
    1 + self.children.iter().map(Tree::size).sum::<usize>()
  }
}

/// What a call has found: one tree for impl, fork's and drop's for flex.
#[derive(Debug, Default)]
pub struct Found {
  pub fork: Option<Tree>,
  pub drop: Option<Tree>,
  pub inverted: bool,
  pub self_inverse: bool,
}

/// What `export` gives for the question's nodes: a table, and the type word of each of them.
#[derive(Debug, Default)]
pub struct Exported {
  pub nodes: Vec<Node>,
  pub types: Vec<u32>,
}

pub fn pack(found: &Found, exported: &Exported) -> Vec<u32> {
  let mut words = vec![0; HEADER];
  for (place, tree) in [(0, &found.fork), (1, &found.drop)] {
    if let Some(tree) = tree {
      words[place] = words.len() as u32;
      pack_tree(&mut words, tree, true);
    }
  }
  if !exported.nodes.is_empty() {
    words[2] = words.len() as u32;
    pack_nodes(&mut words, &exported.nodes);
  }
  words.extend(&exported.types);
  words[3] = words.len() as u32;
  words[4] = u32::from(found.inverted);
  words[5] = u32::from(found.self_inverse);
  words
}

/// A tree in pre-order: next sibling, kind, id, child head.
fn pack_tree(words: &mut Vec<u32>, tree: &Tree, last: bool) {
  let place = words.len();
  let child = if tree.children.is_empty() { 0 } else { place + TREE_RECORD };
  words.extend([0, tree.kind, tree.id, child as u32]);
  for (n, child) in tree.children.iter().enumerate() {
    pack_tree(words, child, n + 1 == tree.children.len());
  }
  if !last {
    words[place] = words.len() as u32;
  }
}

/// The nodes of a table, each followed by its child cells.
fn pack_nodes(words: &mut Vec<u32>, nodes: &[Node]) {
  for (n, node) in nodes.iter().enumerate() {
    let cells = words.len() + 5;
    let end = cells + 2 * node.children.len();
    let next = if n + 1 == nodes.len() { 0 } else { end };
    let child = if node.children.is_empty() { 0 } else { cells };
    words.extend([next as u32, node.kind, node.inverted, node.id, child as u32]);
    for (n, &word) in node.children.iter().enumerate() {
      let next = if n + 1 == node.children.len() { 0 } else { words.len() + 2 };
      words.extend([next as u32, word]);
    }
  }
}
