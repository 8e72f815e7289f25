//! Ours: document 01's type table, for the model. It shares no code with types.rs, and walks no shared type twice.

use std::collections::{HashMap, HashSet};

use crate::{
  answer::Exported,
  draft::Node,
  sheet::{header, kind, optional, records},
};

/// A type: a node of a table, inverted or not.
#[derive(Debug, Clone, Copy, PartialEq, Eq, Hash)]
pub struct Ty {
  pub inverted: bool,
  pub node: usize,
}

impl Ty {
  pub fn of_word(word: u32) -> Ty {
    Ty { inverted: word % 2 == 1, node: word as usize / 2 }
  }

  pub fn word(self) -> u32 {
    2 * self.node as u32 + u32::from(self.inverted)
  }

  pub fn invert_if(self, inverted: bool) -> Ty {
    Ty { inverted: self.inverted ^ inverted, node: self.node }
  }
}

/// A type that is not unknown.
#[derive(Debug, Clone)]
pub struct Known {
  pub inverted: bool,
  pub kind: u32,
  pub id: u32,
  pub children: Vec<Ty>,
}

/// A class of joined nodes stands at its root: what it is, and how many nodes it has.
#[derive(Debug, Clone)]
struct Class {
  known: Option<Known>,
  size: usize,
}

#[derive(Debug, Clone, Copy, PartialEq, Eq)]
pub enum Verdict {
  Success,
  Failure,
  Indeterminate,
}

impl Verdict {
  fn and(self, other: Verdict) -> Verdict {
    match (self, other) {
      (Verdict::Failure, _) | (_, Verdict::Failure) => Verdict::Failure,
      (Verdict::Indeterminate, _) | (_, Verdict::Indeterminate) => Verdict::Indeterminate,
      _ => Verdict::Success,
    }
  }
}

/// The self-dual marks of a sheet's structs and unions.
#[derive(Debug, Clone, Default)]
pub struct Marks {
  structs: Vec<bool>,
  unions: Vec<bool>,
}

impl Marks {
  pub fn new(sheet: &[u32]) -> Marks {
    let marks = |head: usize| {
      records::<3>(sheet, sheet[head]).into_iter().map(|[_, _, mark]| mark == 1).collect()
    };
    Marks { structs: marks(header::STRUCTS), unions: marks(header::UNIONS) }
  }

  /// Whether two such types may meet inverted.
  fn may_meet_inverted(&self, kind: u32, id: u32) -> bool {
    match kind {
      kind::TUPLE => true,
      kind::STRUCT => self.structs[id as usize],
      kind::UNION => self.unions[id as usize],
      _ => false,
    }
  }

  /// Whether such a type is its own inverse if its children are.
  fn own_inverse(&self, kind: u32, id: u32) -> bool {
    matches!(kind, kind::DEFAULT | kind::ERROR) || self.may_meet_inverted(kind, id)
  }
}

/// Pairs of roots that met without a join, the number of joins at that time, and what came of it.
type Met = HashMap<(Ty, Ty), (usize, Verdict)>;

#[derive(Debug, Clone, Default)]
pub struct Table {
  /// Each node's root.
  roots: Vec<Ty>,
  classes: Vec<Class>,
  joins: usize,
  met: Met,
}

/// A trait? and its arguments.
#[derive(Debug, Clone)]
pub struct Query {
  pub trait_: u32,
  pub args: Vec<Ty>,
}

impl Table {
  /// A table as a slice's words have it.
  pub fn read(words: &[u32], head: u32) -> Table {
    let mut table = Table::default();
    for [_, kind, inverted, id, children] in records::<5>(words, head) {
      let children = read_types(words, children);
      table.push((kind != kind::UNKNOWN).then_some(Known {
        inverted: inverted == 1,
        kind,
        id,
        children,
      }));
    }
    table
  }

  pub fn len(&self) -> usize {
    self.roots.len()
  }

  pub fn is_empty(&self) -> bool {
    self.roots.is_empty()
  }

  fn push(&mut self, known: Option<Known>) -> Ty {
    let ty = Ty { inverted: false, node: self.len() };
    self.roots.push(ty);
    self.classes.push(Class { known, size: 1 });
    ty
  }

  pub fn fresh(&mut self) -> Ty {
    self.push(None)
  }

  fn find(&self, ty: Ty) -> Ty {
    self.roots[ty.node].invert_if(ty.inverted)
  }

  /// What a type is; nothing for an unknown.
  pub fn known(&self, ty: Ty) -> Option<Known> {
    let root = self.find(ty);
    let known = self.classes[root.node].known.as_ref()?;
    Some(Known { inverted: known.inverted ^ root.inverted, ..known.clone() })
  }

  pub fn self_inverse(&self, marks: &Marks, ty: Ty) -> bool {
    self.reachable(self.find(ty).node).into_iter().all(|root| {
      self.classes[root].known.as_ref().is_some_and(|known| marks.own_inverse(known.kind, known.id))
    })
  }

  /// The roots of a type and of all that it contains.
  fn reachable(&self, root: usize) -> HashSet<usize> {
    let mut seen = HashSet::from([root]);
    let mut waiting = vec![root];
    while let Some(root) = waiting.pop() {
      for &child in self.classes[root].known.iter().flat_map(|known| &known.children) {
        let child = self.find(child).node;
        if seen.insert(child) {
          waiting.push(child);
        }
      }
    }
    seen
  }

  /// Joins two classes: the smaller under the larger, on a tie the first under the second.
  fn join(&mut self, a: Ty, b: Ty) {
    let larger = self.classes[a.node].size > self.classes[b.node].size;
    let (low, high) = if larger { (b, a) } else { (a, b) };
    // The root that goes under is this type now.
    let now = high.invert_if(low.inverted);
    for root in &mut self.roots {
      if root.node == low.node {
        *root = now.invert_if(root.inverted);
      }
    }
    let Class { known, size } = self.classes[low.node].clone();
    let class = &mut self.classes[now.node];
    class.size += size;
    if class.known.is_none() {
      class.known = known.map(|known| Known { inverted: known.inverted ^ now.inverted, ..known });
    }
    self.joins += 1;
  }

  pub fn unify(&mut self, marks: &Marks, a: Ty, b: Ty) -> Verdict {
    let (a, b) = (self.find(a), self.find(b));
    if let Some(&(joins, verdict)) = self.met.get(&(a, b))
      && joins == self.joins
    {
      return verdict;
    }
    let joins = self.joins;
    let verdict = self.unify_roots(marks, a, b);
    if self.joins == joins {
      self.met.insert((a, b), (joins, verdict));
    }
    verdict
  }

  fn unify_roots(&mut self, marks: &Marks, a: Ty, b: Ty) -> Verdict {
    if a.node == b.node {
      let same = a.inverted == b.inverted || self.self_inverse(marks, a);
      return if same { Verdict::Success } else { Verdict::Failure };
    }
    let (Some(a_known), Some(b_known)) = (self.known(a), self.known(b)) else {
      let contained =
        self.reachable(a.node).contains(&b.node) || self.reachable(b.node).contains(&a.node);
      if contained {
        return Verdict::Failure;
      }
      self.join(a, b);
      return Verdict::Success;
    };
    let verdict = self.unify_known(marks, &a_known, &b_known);
    if verdict == Verdict::Success {
      self.join(a, b);
    }
    verdict
  }

  fn unify_known(&mut self, marks: &Marks, a: &Known, b: &Known) -> Verdict {
    if a.kind == kind::ERROR || b.kind == kind::ERROR {
      return Verdict::Indeterminate;
    }
    let inverted = a.inverted != b.inverted;
    if (a.kind, a.id) != (b.kind, b.id) || inverted && !marks.may_meet_inverted(a.kind, a.id) {
      return Verdict::Failure;
    }
    if a.children.len() == b.children.len() {
      return self.unify_all(marks, &a.children, &b.children, inverted);
    }
    if a.kind == kind::CLOSURE {
      let _ = self.unify(marks, *a.children.last().unwrap(), *b.children.last().unwrap());
    }
    Verdict::Failure
  }

  fn unify_all(&mut self, marks: &Marks, a: &[Ty], b: &[Ty], inverted: bool) -> Verdict {
    let mut verdict = Verdict::Success;
    for (&a, &b) in a.iter().zip(b) {
      verdict = verdict.and(self.unify(marks, a, b.invert_if(inverted)));
    }
    verdict
  }

  pub fn unify_queries(&mut self, marks: &Marks, a: &Query, b: &Query) -> Verdict {
    if a.trait_ == 0 || b.trait_ == 0 {
      Verdict::Indeterminate
    } else if a.trait_ != b.trait_ {
      Verdict::Failure
    } else {
      self.unify_all(marks, &a.args, &b.args, false)
    }
  }

  /// Moves types of another table here; `params` stand for Params where given.
  pub fn import<'a>(&mut self, from: &'a Table, params: Option<&'a [Ty]>) -> Import<'a, '_> {
    Import { from, to: self, params, moved: HashMap::new() }
  }

  /// What `export` gives for the first so many nodes.
  pub fn export_first(&self, nodes: usize) -> Exported {
    let mut to = Table::default();
    let mut import = to.import(self, None);
    let types = (0..nodes).map(|node| import.ty(Ty { inverted: false, node }).word()).collect();
    let plain = |class: &Class| match &class.known {
      None => Node::default(),
      Some(known) => Node {
        kind: known.kind,
        inverted: u32::from(known.inverted),
        id: known.id,
        children: known.children.iter().map(|ty| ty.word()).collect(),
      },
    };
    Exported { nodes: to.classes.iter().map(plain).collect(), types }
  }
}

pub fn read_types(words: &[u32], head: u32) -> Vec<Ty> {
  records::<2>(words, head).into_iter().map(|[_, word]| Ty::of_word(word)).collect()
}

impl Query {
  pub fn read(words: &[u32], trait_: u32, args: u32) -> Query {
    Query { trait_, args: read_types(words, args) }
  }

  /// The trait's id; nothing for Error.
  pub fn trait_id(&self) -> Option<usize> {
    optional(self.trait_)
  }
}

/// A move from one table to another: each class goes once.
pub struct Import<'a, 'b> {
  from: &'a Table,
  to: &'b mut Table,
  params: Option<&'a [Ty]>,
  moved: HashMap<usize, Ty>,
}

impl Import<'_, '_> {
  pub fn ty(&mut self, ty: Ty) -> Ty {
    let root = self.from.find(ty);
    if let Some(moved) = self.moved.get(&root.node) {
      return moved.invert_if(root.inverted);
    }
    let known = &self.from.classes[root.node].known;
    if let (Some(params), Some(Known { inverted, kind: kind::PARAM, id, .. })) =
      (self.params, known)
    {
      return params[*id as usize].invert_if(inverted ^ root.inverted);
    }
    let to = self.to.fresh();
    self.moved.insert(root.node, to);
    if let Some(known) = known {
      let children = known.children.iter().map(|&child| self.ty(child)).collect();
      self.to.classes[to.node].known = Some(Known { children, ..known.clone() });
    }
    to.invert_if(root.inverted)
  }

  pub fn query(&mut self, query: &Query) -> Query {
    Query { trait_: query.trait_, args: query.args.iter().map(|&ty| self.ty(ty)).collect() }
  }
}
