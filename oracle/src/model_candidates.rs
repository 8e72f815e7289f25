//! Ours: document 01's candidate sets, for the model, by what nodes reach; no components are searched for.

use std::collections::BTreeSet;

use crate::sheet::{flag, header, optional, records};

/// A node: 3 × definition, plus 0 direct, 1 within, 2 within ancestors.
type Node = usize;

pub fn within(definition: u32) -> Node {
  3 * definition as usize + 1
}

pub fn within_ancestors(definition: u32) -> Node {
  3 * definition as usize + 2
}

pub struct Charted {
  definitions: Vec<[u32; 7]>,
  impls: Vec<[u32; 6]>,
  bindings: Vec<Vec<[u32; 3]>>,
  /// Vis and end of each edge from each node.
  edges: Vec<Vec<(u32, Node)>>,
  /// Which nodes each node reaches.
  reach: Vec<Vec<bool>>,
}

impl Charted {
  pub fn new(sheet: &[u32]) -> Charted {
    let definitions = records::<7>(sheet, sheet[header::DEFINITIONS]);
    let impls = records::<6>(sheet, sheet[header::IMPLS]);
    let bindings = definitions.iter().map(|d| records::<3>(sheet, d[4])).collect();
    let mut charted =
      Charted { definitions, impls, bindings, edges: Vec::new(), reach: Vec::new() };
    for id in 0..charted.definitions.len() {
      let edges = charted.edges_of(sheet, id);
      charted.edges.extend(edges);
    }
    let nodes = charted.edges.len();
    charted.reach = (0..nodes).map(|node| charted.walk(&[node], |_, _, _| true)).collect();
    charted
  }

  /// The edges of `for_each_child`, from the three nodes of a definition.
  fn edges_of(&self, sheet: &[u32], id: usize) -> [Vec<(u32, Node)>; 3] {
    let [_, parent, trait_vis, trait_, _, named, implicit] = self.definitions[id];
    let traits = records::<4>(sheet, sheet[header::TRAITS]);
    let imports = records::<2>(sheet, sheet[header::IMPORTS]);
    let into_trait = |trait_: u32| optional(trait_).map(|id| within(traits[id][1]));
    let members = |head: u32| {
      records::<4>(sheet, head).into_iter().filter_map(|[_, vis, import, id]| {
        let definition = if import == 1 { optional(imports[id as usize][1])? } else { id as usize };
        Some((vis, 3 * definition))
      })
    };
    let bound = |named: bool| {
      self.bindings[id].iter().filter_map(move |&[_, vis, impl_]| {
        let [_, _, flags, trait_, ..] = self.impls[impl_ as usize];
        let fits = (flags & flag::NAMED != 0) == named;
        fits.then(|| into_trait(trait_).map(|node| (vis, node))).flatten()
      })
    };
    let direct = into_trait(trait_).map(|node| (trait_vis, node));
    let direct = direct.into_iter().chain(bound(true)).chain(members(implicit)).collect();
    let inside = std::iter::once((0, 3 * id)).chain(members(named)).chain(bound(false)).collect();
    let mut around = vec![(0, 3 * id + 1)];
    match optional(parent) {
      Some(parent) => around.push((0, within_ancestors(parent as u32))),
      None => around.extend(optional(sheet[header::PRELUDE]).map(|id| (0, within(id as u32)))),
    }
    [direct, inside, around]
  }

  /// The nodes that some nodes reach by edges that may be taken: from, vis, to.
  fn walk(&self, from: &[Node], may: impl Fn(Node, u32, Node) -> bool) -> Vec<bool> {
    let mut seen = vec![false; self.edges.len()];
    let mut waiting = from.to_vec();
    waiting.iter().for_each(|&node| seen[node] = true);
    while let Some(node) = waiting.pop() {
      for &(vis, to) in &self.edges[node] {
        if !seen[to] && may(node, vis, to) {
          seen[to] = true;
          waiting.push(to);
        }
      }
    }
    seen
  }

  fn ancestors(&self, source: u32) -> Vec<u32> {
    let mut all = vec![source];
    while let Some(parent) = optional(self.definitions[*all.last().unwrap() as usize][1]) {
      all.push(parent as u32);
    }
    all
  }

  /// The impls that the sets of some nodes admit for a source, rising.
  pub fn admitted(&self, source: u32, nodes: &[Node]) -> BTreeSet<usize> {
    let ancestors = self.ancestors(source);
    let sees = |vis: u32| optional(vis).is_none_or(|id| ancestors.contains(&(id as u32)));
    let together = |a: Node, b: Node| self.reach[a][b] && self.reach[b][a];
    let reached = self.walk(nodes, |from, vis, to| sees(vis) || together(from, to));
    let mut admitted = BTreeSet::new();
    for (id, bindings) in self.bindings.iter().enumerate() {
      for &[_, vis, impl_] in bindings {
        let [_, _, flags, trait_, ..] = self.impls[impl_ as usize];
        let level = if flags & flag::NAMED != 0 { 0 } else { 1 };
        let enters = flags & (flag::MANUAL | flag::UNSAFE) == 0 && trait_ != 0;
        if enters && sees(vis) && reached[3 * id + level] {
          admitted.insert(impl_ as usize);
        }
      }
    }
    admitted
  }

  /// The candidates for a trait? and a basic flag.
  pub fn candidates(&self, source: u32, nodes: &[Node], trait_: u32, basic: bool) -> Vec<usize> {
    let fits = |&id: &usize| {
      let [_, _, flags, of, ..] = self.impls[id];
      of == trait_ && (flags & flag::BASIC != 0) == basic
    };
    self.admitted(source, nodes).into_iter().filter(fits).collect()
  }

  pub fn list(&self) -> Vec<String> {
    let line = |id: u32| {
      let impls = self.admitted(id, &[within_ancestors(id)]);
      format!("{id}:{}", impls.iter().map(|id| format!(" {id}")).collect::<String>())
    };
    (0..self.definitions.len() as u32).map(line).collect()
  }
}
