// Shim for structures/diag.rs: the diagnostics that the finder makes, as plain data.

use crate::structures::ast::Span;

#[derive(Debug, Default)]
pub struct Diags {
  pub errors: Vec<Diag>,
}

impl Diags {
  pub(crate) fn error(&mut self, diag: Diag) -> ErrorGuaranteed {
    self.errors.push(diag);
    ErrorGuaranteed(())
  }
}

#[derive(Debug)]
pub enum Diag {
  CannotInfer { span: Span },
  SearchLimit { span: Span, ty: String },
  CannotFindImpl { span: Span, ty: String },
  AmbiguousImpl { span: Span, ty: String },
  MissingBuiltin { span: Span, builtin: &'static str },
  FlexSearchLimit { span: Span, ty: String },
  BiFlexible { span: Span, ty: String },
  IncompatibleForkDropInference { span: Span, ty: String, fork_ty: String, drop_ty: String },
  Guaranteed(ErrorGuaranteed),
}

#[derive(Debug, Clone, Copy, PartialEq, Eq, PartialOrd, Ord, Hash)]
pub struct ErrorGuaranteed(());

impl ErrorGuaranteed {
  pub const fn new_unchecked() -> Self {
    ErrorGuaranteed(())
  }
}

impl From<ErrorGuaranteed> for Diag {
  fn from(value: ErrorGuaranteed) -> Self {
    Diag::Guaranteed(value)
  }
}
