//! Runs the steps of a type case on the Rust's `Types`.

use crate::{
  model::MOST_NODES,
  sheet::{Setting, optional},
  structures::{
    chart::TraitId,
    diag::ErrorGuaranteed,
    types::{ImplType, Type, TypeCtx, Types, UnifyResult},
  },
  type_cases::{Done, Step, TypeCase},
};

/// A sheet and two tables, and the steps made so far.
pub struct Run {
  setting: Setting,
  tables: [Types; 2],
  case: TypeCase,
}

impl Run {
  pub fn new(sheet: Vec<u32>) -> Run {
    let setting = Setting::new(&sheet);
    Run { setting, tables: Default::default(), case: TypeCase { sheet, steps: Vec::new() } }
  }

  /// The same steps, made again.
  pub fn again(case: &TypeCase) -> TypeCase {
    let mut run = Run::new(case.sheet.clone());
    for Done { table, step, .. } in &case.steps {
      run.make(*table, step.clone());
    }
    run.case
  }

  pub fn done(self) -> TypeCase {
    self.case
  }

  pub fn node_count(&self, table: u32) -> u32 {
    self.tables[table as usize].node_count() as u32
  }

  /// Makes a step, and gives what it gave.
  pub fn make(&mut self, table: u32, step: Step) -> Vec<u32> {
    let given = self.given(table as usize, &step);
    self.case.steps.push(Done { table, step, given: given.clone() });
    given
  }

  fn given(&mut self, table: usize, step: &Step) -> Vec<u32> {
    let types = &mut self.tables[table];
    match step {
      Step::Unknown => vec![push(types, None)],
      Step::Known { kind, inverted, id, children } => {
        let node = self.setting.node_state(*kind, *inverted, *id, read(children));
        vec![push(types, Some(node))]
      }
      Step::Unify { a, b } => {
        vec![verdict(types.unify(Type::from_word(*a), Type::from_word(*b)))]
      }
      Step::Occurs { var, ty } => {
        vec![u32::from(types.occurs_in(Type::from_word(*var), Type::from_word(*ty)))]
      }
      Step::SelfInverse { ty } => vec![u32::from(types.self_inverse(Type::from_word(*ty)))],
      Step::GetMod { ty } => vec![match types.get_mod(&self.setting.chart, Type::from_word(*ty)) {
        Ok(None) => 0,
        Err(_) => 1,
        Ok(Some(def)) => 2 + def.0 as u32,
      }],
      Step::UnifyImplType { a, xs, b, ys } => {
        vec![verdict(types.unify_impl_type(&impl_type(*a, xs), &impl_type(*b, ys)))]
      }
      Step::Import { params, types } => self.import(table, params.as_deref(), types),
      Step::Export { types } => self.export(table, types),
      Step::Nodes => self.nodes(table),
    }
  }

  /// Whether the other table had room, and the types there; without room it is emptied.
  fn import(&mut self, table: usize, params: Option<&[u32]>, types: &[u32]) -> Vec<u32> {
    let source = TypeCtx { types: self.tables[table].clone(), inner: read(types) };
    let params = params.map(read);
    let dest = &mut self.tables[1 - table];
    let moved = dest.import(&source, params.as_deref());
    if dest.node_count() > MOST_NODES {
      *dest = Types::default();
      return vec![0];
    }
    [vec![1], write(&moved)].concat()
  }

  fn export(&mut self, table: usize, types: &[u32]) -> Vec<u32> {
    let types = read(types);
    let TypeCtx { types, inner } = self.tables[table].export(|t| t.transfer(&types));
    self.tables[1 - table] = types;
    write(&inner)
  }

  /// How many nodes there are, and for each which type of its root it is; for a root then the size of its class, its kind,
  /// inversion and id, and how many children and which.
  fn nodes(&self, table: usize) -> Vec<u32> {
    let types = &self.tables[table];
    let mut words = vec![types.node_count() as u32];
    for node in 0..types.node_count() {
      words.push(types.root_of(node).to_word());
      let Some((size, known)) = types.root_state(node) else { continue };
      words.push(size as u32);
      match known {
        None => words.extend([0, 0, 0, 0]),
        Some((inverted, kind)) => {
          let children = write(&kind.child_types());
          let (kind, id) = self.setting.kind_and_id(kind);
          words.extend([kind, u32::from(inverted), id, children.len() as u32]);
          words.extend(children);
        }
      }
    }
    words
  }
}

/// Adds a node where there is room, and gives its number; 256 where there is none.
fn push(types: &mut Types, node: Option<crate::structures::types::NodeState>) -> u32 {
  if types.node_count() >= MOST_NODES {
    return MOST_NODES as u32;
  }
  types.push_node(node.flatten()) as u32
}

fn verdict(result: UnifyResult) -> u32 {
  match result {
    UnifyResult::Success => 0,
    UnifyResult::Failure => 1,
    UnifyResult::Indeterminate(_) => 2,
  }
}

fn impl_type(trait_: u32, args: &[u32]) -> ImplType {
  match optional(trait_) {
    Some(id) => ImplType::Trait(TraitId(id), read(args)),
    None => ImplType::Error(ErrorGuaranteed::new_unchecked()),
  }
}

fn read(words: &[u32]) -> Vec<Type> {
  words.iter().map(|&word| Type::from_word(word)).collect()
}

fn write(types: &[Type]) -> Vec<u32> {
  types.iter().map(|ty| ty.to_word()).collect()
}
