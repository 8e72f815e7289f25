// Shim for features/builtin.rs: the built-ins that the finder reads.

use crate::structures::chart::{DefId, ImplId, TraitId};

#[derive(Debug, Default)]
pub struct Builtins {
  pub prelude: Option<DefId>,
  pub fork: Option<TraitId>,
  pub drop: Option<TraitId>,
  pub duplicate: Option<ImplId>,
  pub erase: Option<ImplId>,
  // Document 01 leaves these unset.
  pub fn_: Option<TraitId>,
  pub tuple: Option<TraitId>,
  pub object: Option<TraitId>,
  pub struct_: Option<TraitId>,
  pub enum_: Option<TraitId>,
  pub if_const: Option<TraitId>,
  pub opaque: Option<TraitId>,
  pub default: Option<TraitId>,
}
