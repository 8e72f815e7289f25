//! Runs the Rust on calls that pass checks 1 to 13: one, or several in turn by one `Finder`.

use std::{
  any::Any,
  panic::{self, AssertUnwindSafe},
};

use crate::{
  answer::{self, Exported, Found, Tree, tree},
  case::{Answer, Asked, Call},
  components::finder::{Finder, FinderCache, FlexImpls},
  draft::Node,
  idx::forget_most_types,
  sheet::{Setting, read_impl_type},
  structures::{
    ast::Span,
    chart::{DefId, GenericsId},
    diag::{Diag, Diags},
    tir::TirImpl,
    types::{ImplType, Type, TypeCtx, TypeKind, Types},
  },
};

/// finder.rs's own step limit.
pub const STEPS_LIMIT: u32 = 2_000;

/// What the Rust panics with where a closing join fails.
const CLOSING_ASSERTION: &str = "assertion failed: !unify_result.is_failure()";

/// Keeps panics quiet: those of the closing assertion are part of a run.
pub fn quiet_panics() {
  panic::set_hook(Box::new(|_| {}));
}

/// The Rust's answer to an impl or flex call under a step limit of at most 2,000.
pub fn call(call: &Call, limit: u32) -> Answer {
  seated(std::slice::from_ref(call), limit, |_| true, |mut seat| seat.ask(0))
}

/// One `Finder` for calls on one sheet from one source and generics: its steps begin at the first call's count and go on
/// from call to call. The sheet passes its checks; `passes` tells whether a call's question does, and may be read.
///
/// The limit is a constant of finder.rs. Counts only rise by 1 and are only compared with it, so a run from a higher
/// count ends as one under a lower limit: the count is shifted by the difference before the calls, and back after each.
pub fn seated<T>(
  calls: &[Call],
  limit: u32,
  passes: impl Fn(&Call) -> bool,
  run: impl FnOnce(Seat<'_>) -> T,
) -> T {
  let shift = STEPS_LIMIT - limit;
  let first = &calls[0];
  let mut setting = Setting::new(&first.sheet);
  let tables = Vec::from_iter(
    calls
      .iter()
      .map(|call| passes(call).then(|| setting.read_table(&call.question, call.question[0]))),
  );
  let mut cache = FinderCache::default();
  cache.candidates.build_since(&setting.chart, &setting.sigs);
  let mut diags = Diags::default();
  let mut finder = finder(&setting, &mut diags, &mut cache, first.source, first.generics);
  finder.steps = first.count + shift;
  run(Seat { setting: &setting, finder, calls, tables, shift })
}

/// The impls that each definition's general set admits, a line for each.
pub fn list(sheet: &[u32]) -> Vec<String> {
  let setting = Setting::new(sheet);
  let mut cache = FinderCache::default();
  cache.candidates.build_since(&setting.chart, &setting.sigs);
  let mut diags = Diags::default();
  let mut lines = Vec::new();
  for id in 0..setting.chart.defs.len() {
    let finder = finder(&setting, &mut diags, &mut cache, id as u32, 0);
    let impls: String = finder.general_impls().iter().map(|id| format!(" {}", id.0)).collect();
    lines.push(format!("{id}:{impls}"));
  }
  lines
}

fn finder<'a>(
  setting: &'a Setting,
  diags: &'a mut Diags,
  cache: &'a mut FinderCache,
  source: u32,
  generics: u32,
) -> Finder<'a> {
  let (source, generics) = (DefId(source as usize), GenericsId(generics as usize));
  Finder::new(&setting.chart, &setting.sigs, diags, cache, source, generics, Span::NONE)
}

/// A finder and the calls that it is asked in turn, with the questions' tables.
pub struct Seat<'a> {
  setting: &'a Setting,
  finder: Finder<'a>,
  calls: &'a [Call],
  tables: Vec<Option<Types>>,
  shift: u32,
}

impl Seat<'_> {
  /// The count of steps as the last call left it.
  pub fn count(&self) -> u32 {
    self.finder.steps - self.shift
  }

  /// Puts the count to what document 01 gives where a limit that the Rust does not have has ended a call.
  pub fn set_count(&mut self, count: u32) {
    self.finder.steps = count + self.shift;
  }

  /// Asks call n, from the count that the last one left.
  pub fn ask(&mut self, n: usize) -> Answer {
    let types = self.tables[n].take().expect("a call that passes its checks, asked once");
    // From here on types are pushed by the Rust alone.
    forget_most_types();
    match self.calls[n].asked {
      Asked::Impl { basic } => self.find_impl(&self.calls[n].question, types, basic == 1),
      Asked::Flex => self.find_flex(&self.calls[n].question, types),
    }
  }

  fn find_impl(&mut self, question: &[u32], mut types: Types, basic: bool) -> Answer {
    let query = read_impl_type(question, question[1], question[2]);
    let asked = types.clone();
    let start = self.finder.steps;
    let ended = catch(|| self.finder.try_find_impl(&mut types, &query, basic));
    let count = self.count();
    match ended {
      Ok(Ok(tree)) => {
        let found = Found { fork: Some(plain_tree(&tree)), ..Found::default() };
        Answer::Ok(count, self.pack(&found, &types, asked.node_count()))
      }
      Ok(Err(diag)) => Answer::No(refusal(&diag), count),
      Err(ClosingAssertion) => {
        self.finder.steps = start;
        let found = impl_again(&mut self.finder, &asked, &query, basic);
        assert_eq!(self.count(), count, "the search again spends other steps");
        Answer::Assert(count, self.pack(&found, &types, asked.node_count()))
      }
    }
  }

  fn find_flex(&mut self, question: &[u32], mut types: Types) -> Answer {
    let ty = Type::from_word(question[1]);
    let asked = types.clone();
    let start = self.finder.steps;
    let told = self.finder.diags.errors.len();
    let ended = catch(|| self.finder.find_flex(&mut types, ty));
    let count = self.count();
    match ended {
      Ok(Ok(FlexImpls { inv, fork, drop, self_inverse })) => {
        let [fork, drop] = [fork, drop].map(|tree| tree.as_ref().map(plain_tree));
        let found = Found { fork, drop, inverted: inv.0, self_inverse };
        Answer::Ok(count, self.pack(&found, &types, asked.node_count()))
      }
      // An ambiguous question is told of first; what follows it only says that an error was told.
      Ok(Err(_)) => Answer::No(refusal(&self.finder.diags.errors[told]), count),
      Err(ClosingAssertion) => {
        self.finder.steps = start;
        let found = flex_again(&mut self.finder, &asked, ty);
        assert_eq!(self.count(), count, "the searches again spend other steps");
        Answer::Assert(count, self.pack(&found, &types, asked.node_count()))
      }
    }
  }

  /// The answer's words: what was found, and what the question's nodes have become.
  fn pack(&self, found: &Found, types: &Types, nodes: usize) -> Vec<u32> {
    let nodes = 0..nodes as u32;
    let TypeCtx { types, inner } =
      types.export(|t| nodes.map(|n| t.transfer(&Type::from_word(2 * n))).collect::<Vec<_>>());
    let nodes = types.nodes().map(|node| self.plain_node(node)).collect();
    let types = inner.iter().map(|ty| ty.to_word()).collect();
    answer::pack(found, &Exported { nodes, types })
  }

  fn plain_node(&self, node: Option<(bool, &TypeKind)>) -> Node {
    node.map_or(Node::default(), |(inverted, kind)| {
      let children = kind.child_types().iter().map(|ty| ty.to_word()).collect();
      let (kind, id) = self.setting.kind_and_id(kind);
      Node { kind, inverted: u32::from(inverted), id, children }
    })
  }
}

/// The tree of an impl call whose closing assertion failed: its search is made again, and had one result.
fn impl_again(finder: &mut Finder<'_>, asked: &Types, query: &ImplType, basic: bool) -> Found {
  let TypeCtx { types, inner: query } = asked.export(|t| t.transfer(query));
  let mut results = finder.results(&types, &query, basic).ok().unwrap();
  Found { fork: results.pop().map(|result| plain_tree(&result.inner)), ..Found::default() }
}

/// What a flex call found whose closing assertion failed: its four searches are made again, and had one result at most.
fn flex_again(finder: &mut Finder<'_>, asked: &Types, ty: Type) -> Found {
  let TypeCtx { types, inner: sub_ty } = asked.export(|t| t.transfer(&ty));
  let (fork, drop) = (finder.chart.builtins.fork.unwrap(), finder.chart.builtins.drop.unwrap());
  let mut ask = |trait_, ty| {
    let results = finder.results(&types, &ImplType::Trait(trait_, vec![ty]), false);
    results.unwrap_or_default().pop().map(|result| plain_tree(&result.inner))
  };
  let upright = [ask(fork, sub_ty), ask(drop, sub_ty)];
  let inverse = [ask(fork, sub_ty.inverse()), ask(drop, sub_ty.inverse())];
  let inverted = upright == [None, None] && inverse != [None, None];
  let [fork, drop] = if inverted { inverse } else { upright };
  Found { fork, drop, inverted, self_inverse: asked.self_inverse(ty) }
}

fn plain_tree(tree: &TirImpl) -> Tree {
  match tree {
    TirImpl::Param(n) => Tree::leaf(tree::PARAM, *n),
    TirImpl::Def(id, children) => {
      let children = children.iter().map(plain_tree).collect();
      Tree { kind: tree::DEF, id: id.0 as u32, children }
    }
    TirImpl::ForkClosure(id) => Tree::leaf(tree::FORK_CLOSURE, id.0),
    TirImpl::DropClosure(id) => Tree::leaf(tree::DROP_CLOSURE, id.0),
    _ => unreachable!("a tree that no search over a sheet finds"),
  }
}

struct ClosingAssertion;

fn catch<T>(run: impl FnOnce() -> T) -> Result<T, ClosingAssertion> {
  panic::catch_unwind(AssertUnwindSafe(run)).map_err(|payload| {
    if message(&*payload) == CLOSING_ASSERTION {
      ClosingAssertion
    } else {
      panic::resume_unwind(payload)
    }
  })
}

/// What a panic says.
pub fn message(payload: &(dyn Any + Send)) -> &str {
  let owned = payload.downcast_ref::<String>().map(String::as_str);
  owned.or(payload.downcast_ref::<&str>().copied()).unwrap_or("a panic without words")
}

/// Document 01's number for a diagnostic.
fn refusal(diag: &Diag) -> u32 {
  match diag {
    Diag::SearchLimit { .. } => 18,
    Diag::Guaranteed(_) => 19,
    Diag::CannotFindImpl { .. } => 20,
    Diag::AmbiguousImpl { .. } => 21,
    Diag::MissingBuiltin { builtin: "Fork", .. } => 22,
    Diag::MissingBuiltin { .. } => 23,
    Diag::FlexSearchLimit { .. } => 24,
    Diag::BiFlexible { .. } => 25,
    Diag::IncompatibleForkDropInference { .. } => 26,
    Diag::CannotInfer { .. } => unreachable!("a diagnostic that no search gives"),
  }
}
