//! Random sheets and questions that pass checks 1 to 13, made so that questions often have answers.

use crate::{
  draft::{Binding, Definition, Generics, Impl, Member, Node, Query, Sheet, Table, Trait},
  rng::Rng,
  sheet::{flag, kind, optional},
};

/// Free ids, some of them large.
const FREE_IDS: [u32; 4] = [0, 1, 7, 4_000_000_000];

/// A sheet in the making, and who asks.
pub struct World<'a> {
  pub rng: &'a mut Rng,
  pub sheet: Sheet,
  pub source: u32,
}

/// A question in the making: its table, and under how many type parameters it stands.
#[derive(Default)]
pub struct Asking {
  pub table: Table,
  pub params: u32,
}

impl<'a> World<'a> {
  /// Definitions, traits and named types, with no impls yet.
  pub fn new(rng: &'a mut Rng) -> World<'a> {
    let mut world = World { rng, sheet: Sheet::default(), source: 0 };
    world.add_definitions();
    world.add_traits();
    world.add_named_types();
    world.sheet.generics.push(Generics::default());
    world
  }

  /// A world of one definition, where everything bound is found: for sheets built by hand.
  pub fn bare(rng: &'a mut Rng) -> World<'a> {
    let mut sheet = Sheet::default();
    sheet.definitions.push(Definition::default());
    sheet.generics.push(Generics::default());
    World { rng, sheet, source: 0 }
  }

  fn any_definition(&mut self) -> u32 {
    self.rng.below(self.sheet.definitions.len()) as u32
  }

  /// A vis: public in so many percent.
  fn vis(&mut self, public: usize) -> u32 {
    if self.rng.chance(public) { 0 } else { 1 + self.any_definition() }
  }

  fn add_definitions(&mut self) {
    let many = if self.rng.chance(10) { self.rng.range(5, 9) } else { self.rng.range(1, 5) };
    for id in 0..many {
      let parent = if id > 0 && self.rng.chance(75) { 1 + self.rng.below(id) } else { 0 };
      self.sheet.definitions.push(Definition { parent: parent as u32, ..Definition::default() });
    }
    self.source = self.any_definition();
    for _ in 0..self.rng.range(0, 2) {
      let definition = if self.rng.chance(70) { 1 + self.any_definition() } else { 0 };
      self.sheet.imports.push(definition);
    }
    for id in 0..many {
      self.sheet.definitions[id].named = self.members(2);
      self.sheet.definitions[id].implicit = self.members(1);
    }
    if self.rng.chance(35) {
      self.sheet.prelude = 1 + self.any_definition();
    }
  }

  fn members(&mut self, most: usize) -> Vec<Member> {
    let many = if self.rng.chance(50) { 0 } else { self.rng.range(0, most) };
    (0..many).map(|_| self.member()).collect()
  }

  fn member(&mut self) -> Member {
    let vis = self.vis(75);
    if !self.sheet.imports.is_empty() && self.rng.chance(40) {
      Member { vis, import: 1, id: self.rng.below(self.sheet.imports.len()) as u32 }
    } else {
      Member { vis, import: 0, id: self.any_definition() }
    }
  }

  fn add_traits(&mut self) {
    for _ in 0..self.rng.range(1, 3) {
      let arity = self.rng.weighted(&[6, 70, 16, 5, 3]) as u32;
      self.add_trait(arity);
    }
  }

  pub fn add_trait(&mut self, arity: u32) -> u32 {
    let inherent = arity > 0 && self.rng.chance(25);
    let inherent = if inherent { self.rng.range(1, arity as usize) as u32 } else { 0 };
    let definition = self.any_definition();
    self.sheet.traits.push(Trait { definition, arity, inherent });
    let id = self.sheet.traits.len() as u32 - 1;
    if self.rng.chance(40) {
      let at = self.any_definition() as usize;
      let trait_vis = self.vis(75);
      self.sheet.definitions[at].trait_vis = trait_vis;
      self.sheet.definitions[at].trait_ = id + 1;
    }
    id
  }

  fn add_named_types(&mut self) {
    for _ in 0..self.rng.range(0, 2) {
      let definition = self.any_definition();
      self.sheet.opaques.push(definition);
    }
    for _ in 0..self.rng.range(1, 3) {
      let definition = self.any_definition();
      let mark = u32::from(self.rng.chance(40));
      self.sheet.structs.push((definition, mark));
    }
    for _ in 0..self.rng.range(0, 1) {
      let definition = self.any_definition();
      self.sheet.enums.push(definition);
    }
    for _ in 0..self.rng.range(0, 2) {
      let definition = self.any_definition();
      let mark = u32::from(self.rng.chance(50));
      self.sheet.unions.push((definition, mark));
    }
    for _ in 0..self.rng.range(0, 3) {
      let flex = self.rng.below(4) as u32;
      self.sheet.closures.push(flex);
    }
  }

  /// Fork and Drop, and sometimes duplicate and erase once there are impls to name.
  pub fn add_flex_traits(&mut self) {
    let fork = self.add_trait(1);
    let drop = if self.rng.chance(4) { fork } else { self.add_trait(1) };
    if self.rng.chance(97) {
      self.sheet.fork = fork + 1;
    }
    if self.rng.chance(97) {
      self.sheet.drop = drop + 1;
    }
  }

  pub fn set_duplicate_and_erase(&mut self) {
    let impls = self.sheet.impls.len();
    if impls > 0 && self.rng.chance(70) {
      self.sheet.duplicate = 1 + self.rng.below(impls) as u32;
    }
    if impls > 0 && self.rng.chance(70) {
      self.sheet.erase = 1 + self.rng.below(impls) as u32;
    }
  }

  /// Generics with so many type parameters and some impl parameters.
  pub fn add_generics(&mut self, type_params: u32) -> u32 {
    let mut generics = Generics { type_params, ..Generics::default() };
    let many = self.rng.weighted(&[40, 40, 14, 4, 2]);
    for _ in 0..many {
      let query = self.demand(&mut generics.table, type_params);
      generics.impl_params.push(query);
    }
    if self.rng.chance(8) {
      self.ty(&mut generics.table, type_params, 1);
    }
    shuffle_nodes(self.rng, &mut generics.table, |change| {
      generics.impl_params.iter_mut().for_each(|query| change(&mut query.args));
    });
    self.sheet.generics.push(generics);
    self.sheet.generics.len() as u32 - 1
  }

  /// What an impl parameter asks for: most often a trait of a type parameter.
  fn demand(&mut self, table: &mut Table, type_params: u32) -> Query {
    if self.rng.chance(2) {
      return Query::default();
    }
    let trait_ = self.rng.below(self.sheet.traits.len());
    let arity = self.sheet.traits[trait_].arity;
    let args = (0..arity)
      .map(|_| {
        if type_params > 0 && self.rng.chance(70) {
          table.add(kind::PARAM, self.rng.below(type_params as usize) as u32, &[])
        } else {
          self.ty(table, type_params, 1)
        }
      })
      .collect();
    Query { trait_: trait_ as u32 + 1, args }
  }

  /// An impl of a trait, bound somewhere.
  pub fn add_impl(&mut self, trait_: u32) -> u32 {
    let type_params = self.rng.weighted(&[40, 42, 14, 4]) as u32;
    let known: Vec<u32> = (0..self.sheet.generics.len() as u32)
      .filter(|&g| self.sheet.generics[g as usize].type_params == type_params)
      .collect();
    let generics = if !known.is_empty() && self.rng.chance(60) {
      self.rng.pick(&known)
    } else {
      self.add_generics(type_params)
    };
    let mut table = Table::default();
    let arity = self.sheet.traits[trait_ as usize].arity;
    let mut args: Vec<u32> = (0..arity).map(|_| self.ty(&mut table, type_params, 2)).collect();
    if self.rng.chance(5) {
      self.ty(&mut table, type_params, 1);
    }
    shuffle_nodes(self.rng, &mut table, |change| change(&mut args));
    let mut query = Query { trait_: trait_ + 1, args };
    if self.rng.chance(2) {
      query = Query::default();
    }
    let flags = self.flags();
    self.sheet.impls.push(Impl { generics, flags, table, query });
    let id = self.sheet.impls.len() as u32 - 1;
    self.bind(id);
    id
  }

  fn flags(&mut self) -> u32 {
    let mut flags = 0;
    for (one, percent) in
      [(flag::MANUAL, 3), (flag::BASIC, 12), (flag::UNSAFE, 3), (flag::NAMED, 35)]
    {
      flags |= if self.rng.chance(percent) { one } else { 0 };
    }
    flags
  }

  /// Binds an impl, most often where its source, its trait or an argument's module looks.
  pub fn bind(&mut self, impl_: u32) {
    if self.rng.chance(4) {
      return;
    }
    let at = match self.rng.weighted(&[50, 20, 20, 10]) {
      0 => self.rng.pick(&self.ancestors(self.source)),
      1 => match optional(self.sheet.impls[impl_ as usize].query.trait_) {
        Some(trait_) => self.sheet.traits[trait_].definition,
        None => self.any_definition(),
      },
      2 => self.module_of(impl_),
      _ => self.any_definition(),
    };
    let vis = self.vis(82);
    self.sheet.definitions[at as usize].bindings.push(Binding { vis, impl_ });
    if self.rng.chance(6) {
      self.bind(impl_);
    }
  }

  fn ancestors(&self, definition: u32) -> Vec<u32> {
    let mut all = vec![definition];
    let mut at = definition;
    while let Some(parent) = optional(self.sheet.definitions[at as usize].parent) {
      at = parent as u32;
      all.push(at);
    }
    all
  }

  /// The definition of the first named type in an impl's table, or any.
  fn module_of(&mut self, impl_: u32) -> u32 {
    let sheet = &self.sheet;
    let nodes = &sheet.impls[impl_ as usize].table.0;
    let module = nodes.iter().find_map(|node| match node.kind {
      kind::OPAQUE => Some(sheet.opaques[node.id as usize]),
      kind::STRUCT => Some(sheet.structs[node.id as usize].0),
      kind::ENUM => Some(sheet.enums[node.id as usize]),
      kind::UNION => Some(sheet.unions[node.id as usize].0),
      _ => None,
    });
    module.unwrap_or_else(|| self.any_definition())
  }

  /// A random type: its word; nodes that it needs are added to the table, or found there.
  pub fn ty(&mut self, table: &mut Table, params: u32, depth: usize) -> u32 {
    let word = if !table.0.is_empty() && self.rng.chance(15) {
      2 * self.rng.below(table.0.len()) as u32
    } else {
      self.new_type(table, params, depth)
    };
    word ^ u32::from(self.rng.chance(7))
  }

  fn new_type(&mut self, table: &mut Table, params: u32, depth: usize) -> u32 {
    let (kind, many) = self.kind_and_many(params, depth);
    let id = match kind {
      kind::FN | kind::KEY => self.rng.pick(&FREE_IDS),
      kind::TUPLE | kind::REF | kind::UNKNOWN | kind::NEVER | kind::DEFAULT | kind::ERROR => 0,
      _ => self.rng.below(many) as u32,
    };
    let children = self.child_count(kind, id);
    let children: Vec<u32> =
      (0..children).map(|_| self.ty(table, params, depth.saturating_sub(1))).collect();
    let word = table.add(kind, id, &children);
    if kind != kind::UNKNOWN && self.rng.chance(5) {
      table.0.last_mut().unwrap().inverted = 1;
    }
    word
  }

  /// A kind, and how many ids it has.
  fn kind_and_many(&mut self, params: u32, depth: usize) -> (u32, usize) {
    let sheet = &self.sheet;
    let deep = depth > 0;
    // Weight where there are children to have, weight where there are none, ids.
    let rows: [(u32, usize, usize, usize); 14] = [
      (kind::UNKNOWN, 4, 8, 1),
      (kind::PARAM, 30, 40, params as usize),
      (kind::TUPLE, 14, 0, 1),
      (kind::OPAQUE, 8, 8, sheet.opaques.len()),
      (kind::STRUCT, 24, 12, sheet.structs.len()),
      (kind::ENUM, 6, 4, sheet.enums.len()),
      (kind::UNION, 8, 4, sheet.unions.len()),
      (kind::FN, 4, 8, 1),
      (kind::CLOSURE, 6, 0, sheet.closures.len()),
      (kind::REF, 6, 0, 1),
      (kind::KEY, 2, 4, 1),
      (kind::NEVER, 1, 3, 1),
      (kind::DEFAULT, 3, 6, 1),
      (kind::ERROR, 1, 2, 1),
    ];
    let weight = |row: &(u32, usize, usize, usize)| match (row.3, deep) {
      (0, _) => 0,
      (_, true) => row.1,
      (_, false) => row.2,
    };
    let weights: Vec<usize> = rows.iter().map(weight).collect();
    let (kind, _, _, many) = rows[self.rng.weighted(&weights)];
    (kind, many)
  }

  /// How many children a type has: most often as many as others of its kind and id.
  fn child_count(&mut self, kind: u32, id: u32) -> usize {
    match kind {
      kind::TUPLE => self.rng.weighted(&[20, 30, 40, 10]),
      kind::OPAQUE => usize::from(self.rng.chance(5)),
      kind::STRUCT | kind::ENUM | kind::UNION if self.rng.chance(95) => (id as usize + 1) % 3,
      kind::STRUCT | kind::ENUM | kind::UNION => self.rng.range(0, 8),
      kind::CLOSURE if self.rng.chance(90) => 1 + (id as usize) % 2,
      kind::CLOSURE => self.rng.range(1, 8),
      kind::REF => 1,
      _ => 0,
    }
  }

  /// Arguments of a trait for which some impl is there, and impls for what that one asks, to some depth.
  pub fn instance(&mut self, asking: &mut Asking, trait_: u32, depth: usize) -> Vec<u32> {
    let impls: Vec<usize> = (0..self.sheet.impls.len())
      .filter(|&id| self.sheet.impls[id].query.trait_ == trait_ + 1)
      .filter(|&id| depth > 0 || self.demands(id).is_empty())
      .collect();
    if impls.is_empty() {
      let arity = self.sheet.traits[trait_ as usize].arity;
      return (0..arity).map(|_| self.ty(&mut asking.table, asking.params, 1)).collect();
    }
    let id = self.rng.pick(&impls);
    let generics = self.sheet.impls[id].generics as usize;
    let mut chosen = vec![None; self.sheet.generics[generics].type_params as usize];
    for query in self.demands(id) {
      self.choose_by_demand(asking, generics, &query, &mut chosen, depth);
    }
    let chosen: Vec<u32> = chosen
      .into_iter()
      .map(|word| match word {
        Some(word) => word,
        None if self.rng.chance(20) => asking.table.add(kind::UNKNOWN, 0, &[]),
        None => self.ty(&mut asking.table, asking.params, 1),
      })
      .collect();
    let Impl { table, query, .. } = self.sheet.impls[id].clone();
    let mut copies = vec![None; table.0.len()];
    let mut copy = |&word: &u32| copy_type(&table, word, &chosen, &mut asking.table, &mut copies);
    query.args.iter().map(&mut copy).collect()
  }

  fn demands(&self, impl_: usize) -> Vec<Query> {
    self.sheet.generics[self.sheet.impls[impl_].generics as usize].impl_params.clone()
  }

  /// Type parameters that a demand names bare become arguments for which the demand can be met.
  fn choose_by_demand(
    &mut self,
    asking: &mut Asking,
    generics: usize,
    query: &Query,
    chosen: &mut [Option<u32>],
    depth: usize,
  ) {
    let Some(trait_) = optional(query.trait_) else { return };
    if depth == 0 {
      return;
    }
    let args = self.instance(asking, trait_ as u32, depth - 1);
    for (&word, arg) in query.args.iter().zip(args) {
      let node = &self.sheet.generics[generics].table.0[word as usize / 2];
      if node.kind == kind::PARAM {
        chosen[node.id as usize].get_or_insert(arg ^ (word % 2) ^ node.inverted);
      }
    }
  }

  /// Puts unknowns, shared types and inversions into a question whose nodes stand behind their children.
  pub fn blur(&mut self, asking: &mut Asking, times: usize) {
    for _ in 0..times {
      let inner = |node: &usize| !asking.table.0[*node].children.is_empty();
      let parents: Vec<usize> = (0..asking.table.0.len()).filter(inner).collect();
      if parents.is_empty() {
        return;
      }
      let parent = self.rng.pick(&parents);
      let child = self.rng.below(asking.table.0[parent].children.len());
      let unknowns: Vec<usize> = (0..asking.table.0.len())
        .filter(|&node| asking.table.0[node].kind == kind::UNKNOWN)
        .collect();
      let old = asking.table.0[parent].children[child];
      asking.table.0[parent].children[child] = match self.rng.weighted(&[30, 30, 25, 15]) {
        0 => asking.table.add(kind::UNKNOWN, 0, &[]),
        1 if !unknowns.is_empty() => 2 * self.rng.pick(&unknowns) as u32,
        2 if parent > 0 => 2 * self.rng.below(parent) as u32,
        3 => old ^ 1,
        _ => old,
      };
    }
  }

  /// Changes a question a little, so that it may have another answer or none.
  pub fn disturb(&mut self, asking: &mut Asking) {
    let many = asking.table.0.len();
    if many == 0 {
      return;
    }
    let place = self.rng.below(many);
    let node = &mut asking.table.0[place];
    match self.rng.weighted(&[40, 15, 25, 10, 10]) {
      0 => *node = Node::default(),
      1 => node.inverted ^= u32::from(node.kind != kind::UNKNOWN),
      2 if !node.children.is_empty() => {
        let child = self.rng.below(node.children.len());
        node.children[child] ^= 1;
      }
      3 => *node = Node { kind: kind::DEFAULT, ..Node::default() },
      4 => *node = Node { kind: kind::ERROR, ..Node::default() },
      _ => {}
    }
  }
}

/// Copies a type of an impl's table into a question's, type parameters chosen.
fn copy_type(
  from: &Table,
  word: u32,
  chosen: &[u32],
  to: &mut Table,
  copies: &mut [Option<u32>],
) -> u32 {
  let place = word as usize / 2;
  let copy = match copies[place] {
    Some(copy) => copy,
    None => {
      let node = &from.0[place];
      let copy = if node.kind == kind::PARAM {
        chosen[node.id as usize] ^ node.inverted
      } else {
        let children: Vec<u32> =
          node.children.iter().map(|&word| copy_type(from, word, chosen, to, copies)).collect();
        let copy = to.add(node.kind, node.id, &children);
        to.0.last_mut().unwrap().inverted = node.inverted;
        copy
      };
      copies[place] = Some(copy);
      copy
    }
  };
  copy ^ (word % 2)
}

/// Puts a table's nodes in another order; `others` is told how to change type words that name them.
pub fn shuffle_nodes(
  rng: &mut Rng,
  table: &mut Table,
  others: impl FnOnce(&dyn Fn(&mut Vec<u32>)),
) {
  if rng.chance(50) {
    return;
  }
  let mut order: Vec<usize> = (0..table.0.len()).collect();
  rng.shuffle(&mut order);
  let mut now = vec![0; order.len()];
  for (place, &old) in order.iter().enumerate() {
    now[old] = place as u32;
  }
  let change = |words: &mut Vec<u32>| {
    words.iter_mut().for_each(|word| *word = 2 * now[*word as usize / 2] + *word % 2);
  };
  table.0 = order.iter().map(|&old| table.0[old].clone()).collect();
  table.0.iter_mut().for_each(|node| change(&mut node.children));
  others(&change);
}
