// Ours, included behind types.rs in its module: builds a table node by node and reads one, as type words.

/// A node as a table's words have it: inversion and kind, or nothing for an unknown.
pub type NodeState = Option<(bool, TypeKind)>;

impl Type {
  /// The type of a type word: 2 × node, plus 1 if inverted.
  pub fn from_word(word: u32) -> Type {
    Type::new(Inverted(word % 2 == 1), TypeIdx(word as usize / 2))
  }

  pub fn to_word(self) -> u32 {
    2 * self.idx().0 as u32 + u32::from(self.inv().0)
  }
}

impl Types {
  /// A table of these nodes, none joined.
  pub fn of_nodes(nodes: impl IntoIterator<Item = NodeState>) -> Types {
    let mut types = Types::default();
    for node in nodes {
      types.push_node(node);
    }
    types
  }

  /// Adds a node, joined to none, and gives its number.
  pub fn push_node(&mut self, node: NodeState) -> usize {
    let state = match node {
      Some((inverted, kind)) => Known(Inverted(inverted), kind),
      None => Unknown(Span::NONE),
    };
    self.types.push(Root { state, size: 1 }).0
  }

  /// Whether one type occurs in another, whatever of their classes they are.
  pub fn occurs_in(&self, var: Type, ty: Type) -> bool {
    self.occurs(self.find(var), self.find(ty))
  }

  /// The type of its root that a node is.
  pub fn root_of(&self, node: usize) -> Type {
    self.find(TypeIdx(node).into())
  }

  /// The size of a root's class, and what is known of it; nothing for a node that is joined to another.
  pub fn root_state(&self, node: usize) -> Option<(usize, Option<(bool, &TypeKind)>)> {
    match &self.types[TypeIdx(node)] {
      Root { state, size } => {
        Some((*size, state.kind().map(|(inverted, kind)| (inverted.0, kind))))
      }
      Child(_) => None,
    }
  }

  pub fn node_count(&self) -> usize {
    self.types.len()
  }

  /// The nodes of a table in which none is joined to another, as an export's is.
  pub fn nodes(&self) -> impl Iterator<Item = Option<(bool, &TypeKind)>> {
    self.types.vec.iter().map(|node| match node {
      Root { state, .. } => state.kind().map(|(inverted, kind)| (inverted.0, kind)),
      Child(_) => unreachable!("a node that is joined to another"),
    })
  }
}

impl TypeKind {
  pub fn child_types(&self) -> Vec<Type> {
    self.children().collect()
  }
}
