// Shim for structures/ast.rs: names, places in a text, flex; syntax trees that the finder never reads are empty.

use crate::components::loader::FileId;

#[derive(Debug, Clone, Default, PartialEq, Eq, PartialOrd, Ord, Hash)]
pub struct Ident(pub String);

#[derive(Debug, Clone, Copy, PartialEq, Eq, PartialOrd, Ord, Hash)]
pub struct Span {
  pub file: FileId,
  pub start: usize,
  pub end: usize,
}

impl Span {
  pub const NONE: Span = Span { file: FileId(usize::MAX), start: 0, end: 0 };
}

#[derive(Debug, Clone, Copy, PartialEq, Eq)]
pub enum Flex {
  None,
  Fork,
  Drop,
  Full,
}

impl Flex {
  pub fn fork(self) -> bool {
    matches!(self, Flex::Fork | Flex::Full)
  }

  pub fn drop(self) -> bool {
    matches!(self, Flex::Drop | Flex::Full)
  }

  pub fn sigil(self) -> &'static str {
    match self {
      Flex::None => "",
      Flex::Fork => "+",
      Flex::Drop => "?",
      Flex::Full => "*",
    }
  }
}

macro_rules! unread {
  ($($name:ident)*) => {
    $(
      #[derive(Debug, Clone, Default)]
      pub struct $name;
    )*
  };
}

unread! { Block Expr Impl ImplParam Pat Path Trait Ty TypeParam }
