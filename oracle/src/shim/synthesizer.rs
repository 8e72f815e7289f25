// Shim for components/synthesizer.rs and features that find impls of built-in traits which document 01 leaves unset.
// None of it is reached: a question's trait is never one of these.

use crate::{
  components::finder::{Error, Finder},
  structures::{
    tir::TirImpl,
    types::{Type, TypeCtx, Types},
  },
};

/// An impl that the compiler writes itself. There is none.
#[derive(Debug, Clone, PartialEq, Eq)]
pub enum SyntheticImpl {}

macro_rules! unset {
  ($($name:ident)*) => {
    impl Finder<'_> {
      $(
        pub(crate) fn $name(&mut self, _: &[Type], _: &Types, _: &mut Vec<TypeCtx<TirImpl>>) {
          unreachable!("a built-in trait that is unset")
        }
      )*
    }
  };
}

unset! {
  find_auto_impls_tuple
  find_auto_impls_object
  find_auto_impls_struct
  find_auto_impls_enum
  find_auto_impls_if_const
  find_auto_impls_opaque
  find_auto_impls_default
}

impl Finder<'_> {
  pub(crate) fn find_auto_impls_fn(
    &mut self,
    _: &[Type],
    _: &Types,
    _: &mut Vec<TypeCtx<TirImpl>>,
  ) -> Result<(), Error> {
    unreachable!("a built-in trait that is unset")
  }
}
