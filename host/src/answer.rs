//! An answer's words by name (document 01, "The answer").

/// An answer's words, and the count of steps after the call.
#[derive(Debug, Clone, Copy, PartialEq, Eq)]
pub struct Answer<'a> {
  words: &'a [u32],
  count: u32,
}

/// What a node of a tree is: an impl parameter of the generics, an impl of the sheet, or a closure's own fork or drop.
#[derive(Debug, Clone, Copy, PartialEq, Eq)]
pub enum TreeKind {
  Param,
  Def,
  ForkClosure,
  DropClosure,
}

/// A tree of impls.
#[derive(Debug, Clone, PartialEq, Eq)]
pub struct Tree {
  pub kind: TreeKind,
  pub id: u32,
  pub children: Vec<Tree>,
}

impl<'a> Answer<'a> {
  pub(crate) fn new(buffer: &'a [u32], count: u32) -> Answer<'a> {
    Answer { words: &buffer[..buffer[3] as usize], count }
  }

  /// All words of the answer.
  pub fn words(self) -> &'a [u32] {
    self.words
  }

  /// The count of steps after the call.
  pub fn count(self) -> u32 {
    self.count
  }

  /// The tree of an impl call, or fork's of a flex call.
  pub fn tree(self) -> Option<Tree> {
    self.trees(self.words[0]).pop()
  }

  /// Drop's tree of a flex call.
  pub fn drop_tree(self) -> Option<Tree> {
    self.trees(self.words[1]).pop()
  }

  /// Whether a flex call found the inverse type flexible, and whether the type is its own inverse.
  pub fn inverted(self) -> bool {
    self.words[4] == 1
  }

  pub fn self_inverse(self) -> bool {
    self.words[5] == 1
  }

  /// The type words that the first `nodes` nodes of the question have become, all of them for its own count.
  pub fn types(self, nodes: usize) -> &'a [u32] {
    &self.words[self.words.len() - nodes..]
  }

  fn trees(self, head: u32) -> Vec<Tree> {
    let mut trees = Vec::new();
    let mut head = head as usize;
    while head != 0 {
      let [next, kind, id, child] = self.words[head..head + 4] else { unreachable!() };
      let kind = match kind {
        1 => TreeKind::Param,
        2 => TreeKind::Def,
        3 => TreeKind::ForkClosure,
        _ => TreeKind::DropClosure,
      };
      trees.push(Tree { kind, id, children: self.trees(child) });
      head = next as usize;
    }
    trees
  }
}
