// Shim for structures/tir.rs: closures' ids and the trees of impls.

use vine_util::new_idx;

use crate::{
  components::synthesizer::SyntheticImpl,
  structures::{
    chart::{FnId, ImplId},
    diag::ErrorGuaranteed,
  },
};

new_idx!(pub ClosureId; n => ["c{n}"]);

#[derive(Debug, Clone, PartialEq, Eq)]
pub enum TirImpl {
  Error(ErrorGuaranteed),
  Param(usize),
  Def(ImplId, Vec<TirImpl>),
  Fn(FnId, Vec<TirImpl>, usize),
  Closure(ClosureId),
  ForkClosure(ClosureId),
  DropClosure(ClosureId),
  Synthetic(SyntheticImpl),
}
