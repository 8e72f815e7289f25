//! Ours: a model of the whole search with document 01's limits 14 to 17, which the Rust does not have.
//!
//! It is written from the document, and compared with the Rust wherever no limit is met. It says where one is.

use crate::{
  answer::{Found, Tree, pack, tree},
  case::{Answer, Asked, Call},
  model_candidates::{Charted, within, within_ancestors},
  model_types::{Marks, Query, Table, Ty, Verdict},
  sheet::{header, kind, optional, records},
};

/// The most nodes of a type table.
pub const MOST_NODES: usize = 256;
const MOST_DEPTH: usize = 16;
const MOST_RESULTS: usize = 4;
const MOST_TREE_NODES: usize = 256;

/// A refusal's number.
type Stop = u32;

/// A result of one question, or of one tail of sub-questions: the types, and the tree or trees.
#[derive(Clone)]
struct Entry {
  types: Table,
  trees: Vec<Tree>,
}

/// Impl parameters of generics, with their table.
struct Demands {
  type_params: u32,
  table: Table,
  queries: Vec<Query>,
}

struct Signature {
  generics: usize,
  table: Table,
  query: Query,
}

struct Search<'a> {
  sheet: &'a [u32],
  charted: Charted,
  marks: Marks,
  demands: Vec<Demands>,
  signatures: Vec<Signature>,
  source: u32,
  generics: usize,
  count: u32,
  limit: u32,
}

/// What a call that passes checks 1 to 13 comes to under a step limit.
pub fn call(call: &Call, limit: u32) -> Answer {
  let mut search = Search::new(call, limit);
  let ended = match call.asked {
    Asked::Impl { basic } => search.find_impl(&call.question, basic == 1),
    Asked::Flex => search.find_flex(&call.question),
  };
  match ended {
    Ok((words, true)) => Answer::Ok(search.count, words),
    Ok((words, false)) => Answer::Assert(search.count, words),
    Err(number) => Answer::No(number, search.count),
  }
}

/// The listing's lines of a sheet that passes its checks.
pub fn list(sheet: &[u32]) -> Vec<String> {
  Charted::new(sheet).list()
}

/// Whether a number is of a limit that the Rust does not have.
pub fn is_limit(answer: &Answer) -> bool {
  matches!(answer, Answer::No(14..=17, _))
}

/// The answer's words, and whether the closing join did not fail.
type Ended = Result<(Vec<u32>, bool), Stop>;

impl<'a> Search<'a> {
  fn new(call: &'a Call, limit: u32) -> Search<'a> {
    let sheet = &call.sheet[..];
    let demands = |[_, type_params, table, params]: [u32; 4]| Demands {
      type_params,
      table: Table::read(sheet, table),
      queries: records::<3>(sheet, params)
        .into_iter()
        .map(|[_, trait_, args]| Query::read(sheet, trait_, args))
        .collect(),
    };
    let signature = |[_, generics, _, trait_, table, args]: [u32; 6]| Signature {
      generics: generics as usize,
      table: Table::read(sheet, table),
      query: Query::read(sheet, trait_, args),
    };
    Search {
      sheet,
      charted: Charted::new(sheet),
      marks: Marks::new(sheet),
      demands: records(sheet, sheet[header::GENERICS]).into_iter().map(demands).collect(),
      signatures: records(sheet, sheet[header::IMPLS]).into_iter().map(signature).collect(),
      source: call.source,
      generics: call.generics as usize,
      count: call.count,
      limit,
    }
  }

  fn find_impl(&mut self, question: &[u32], basic: bool) -> Ended {
    let mut types = Table::read(question, question[0]);
    let nodes = types.len();
    let query = Query::read(question, question[1], question[2]);
    let mut asked = Table::default();
    let sub_query = asked.import(&types, None).query(&query);
    let mut results = self.question(1, &asked, &sub_query, basic)?;
    let result = match results.len() {
      0 => return Err(20),
      1 => results.pop().unwrap(),
      _ => return Err(21),
    };
    let found_query = types.import(&result.types, None).query(&sub_query);
    fits(&types)?;
    let verdict = types.unify_queries(&self.marks, &query, &found_query);
    let found = Found { fork: result.trees.into_iter().next(), ..Found::default() };
    Ok((pack(&found, &types.export_first(nodes)), verdict != Verdict::Failure))
  }

  fn find_flex(&mut self, question: &[u32]) -> Ended {
    let mut types = Table::read(question, question[0]);
    let nodes = types.len();
    let ty = Ty::of_word(question[1]);
    let mut asked = Table::default();
    let sub_ty = asked.import(&types, None).ty(ty);
    let (fork, drop) = (self.sheet[header::FORK], self.sheet[header::DROP]);
    if fork == 0 {
      return Err(22);
    }
    if drop == 0 {
      return Err(23);
    }

    let mut results = Vec::new();
    for (trait_, inverted) in [(fork, false), (drop, false), (fork, true), (drop, true)] {
      let query = Query { trait_, args: vec![sub_ty.invert_if(inverted)] };
      results.push(match self.question(1, &asked, &query, false) {
        Err(18 | 19) => Vec::new(),
        other => other?,
      });
    }
    if self.count > self.limit {
      return Err(24);
    }
    if results.iter().any(|results| results.len() > 1) {
      return Err(21);
    }
    let [pos_fork, pos_drop, neg_fork, neg_drop] =
      <[Vec<Entry>; 4]>::try_from(results).ok().unwrap().map(|mut results| results.pop());
    let upright = pos_fork.is_some() || pos_drop.is_some();
    let inverse = neg_fork.is_some() || neg_drop.is_some();
    let self_inverse = types.self_inverse(&self.marks, ty);
    if upright && inverse && !self_inverse {
      return Err(25);
    }

    let inverted = !upright && inverse;
    let chosen = if inverted { [neg_fork, neg_drop] } else { [pos_fork, pos_drop] };
    let [fork_ty, drop_ty] = chosen
      .each_ref()
      .map(|result| result.as_ref().map(|result| types.import(&result.types, None).ty(sub_ty)));
    fits(&types)?;
    if let (Some(fork_ty), Some(drop_ty)) = (fork_ty, drop_ty)
      && types.unify(&self.marks, fork_ty, drop_ty) == Verdict::Failure
    {
      return Err(26);
    }
    let found_ty = fork_ty.or(drop_ty);
    let verdict = found_ty.map(|found_ty| types.unify(&self.marks, ty, found_ty));
    let [fork, drop] =
      chosen.map(|result| result.and_then(|result| result.trees.into_iter().next()));
    let found = Found { fork, drop, inverted, self_inverse };
    Ok((pack(&found, &types.export_first(nodes)), verdict != Some(Verdict::Failure)))
  }

  fn question(
    &mut self,
    depth: usize,
    types: &Table,
    query: &Query,
    basic: bool,
  ) -> Result<Vec<Entry>, Stop> {
    self.count += 1;
    if self.count > self.limit {
      return Err(18);
    }
    if depth > MOST_DEPTH {
      return Err(15);
    }
    let mut found = Vec::new();
    if !basic {
      if let Some(tree) = self.built_in(types, query) {
        add(&mut found, Entry { types: types.clone(), trees: vec![tree] })?;
      }
      self.add_parameters(types, query, &mut found)?;
    }
    for candidate in self.candidates(types, query, basic)? {
      for entry in self.candidate(depth, types, query, candidate)? {
        let Entry { types, trees } = entry;
        let tree = Tree { kind: tree::DEF, id: candidate as u32, children: trees };
        add(&mut found, Entry { types, trees: vec![tree] })?;
      }
    }
    Ok(found)
  }

  /// An upright Fn, or Default either way, gives duplicate or erase; an upright closure with that flex its own.
  fn built_in(&self, types: &Table, query: &Query) -> Option<Tree> {
    query.trait_id()?;
    let (impl_, flex, closure) = if query.trait_ == self.sheet[header::FORK] {
      (header::DUPLICATE, 1, tree::FORK_CLOSURE)
    } else if query.trait_ == self.sheet[header::DROP] {
      (header::ERASE, 2, tree::DROP_CLOSURE)
    } else {
      return None;
    };
    let known = types.known(query.args[0])?;
    match known.kind {
      kind::DEFAULT => {}
      kind::FN if !known.inverted => {}
      kind::CLOSURE if !known.inverted => {
        let closures = records::<2>(self.sheet, self.sheet[header::CLOSURES]);
        let has = closures[known.id as usize][1] & flex != 0;
        return has.then(|| Tree::leaf(closure, known.id as usize));
      }
      _ => return None,
    }
    optional(self.sheet[impl_]).map(|id| Tree::leaf(tree::DEF, id))
  }

  fn add_parameters(
    &self,
    types: &Table,
    query: &Query,
    found: &mut Vec<Entry>,
  ) -> Result<(), Stop> {
    let Demands { table, queries, .. } = &self.demands[self.generics];
    for (n, param) in queries.iter().enumerate() {
      if query.trait_ == 0 || query.trait_ != param.trait_ {
        continue;
      }
      let mut types = types.clone();
      let param = types.import(table, None).query(param);
      fits(&types)?;
      if types.unify_queries(&self.marks, &param, query) == Verdict::Success {
        add(found, Entry { types, trees: vec![Tree::leaf(tree::PARAM, n)] })?;
      }
    }
    Ok(())
  }

  fn candidates(&self, types: &Table, query: &Query, basic: bool) -> Result<Vec<usize>, Stop> {
    let Some(id) = query.trait_id() else { return Ok(Vec::new()) };
    let [_, definition, _, inherent] = records::<4>(self.sheet, self.sheet[header::TRAITS])[id];
    let mut nodes = vec![within_ancestors(self.source), within(definition)];
    for &arg in &query.args[..inherent as usize] {
      if types.known(arg).is_none() {
        return Err(18);
      }
      nodes.extend(self.module(types, arg)?.map(within));
    }
    Ok(self.charted.candidates(self.source, &nodes, query.trait_, basic))
  }

  /// The definition of a type's module, looked for through Ref.
  fn module(&self, types: &Table, ty: Ty) -> Result<Option<u32>, Stop> {
    let Some(known) = types.known(ty) else { return Ok(None) };
    let head = match known.kind {
      kind::ERROR => return Err(19),
      kind::REF => return self.module(types, known.children[0]),
      kind::OPAQUE => header::OPAQUES,
      kind::STRUCT => header::STRUCTS,
      kind::ENUM => header::ENUMS,
      kind::UNION => header::UNIONS,
      _ => return Ok(None),
    };
    Ok(Some(records::<2>(self.sheet, self.sheet[head])[known.id as usize][1]))
  }

  fn candidate(
    &mut self,
    depth: usize,
    types: &Table,
    query: &Query,
    id: usize,
  ) -> Result<Vec<Entry>, Stop> {
    let mut types = types.clone();
    let Signature { generics, table, query: signature } = &self.signatures[id];
    let Demands { type_params, table: demands, queries } = &self.demands[*generics];
    let params: Vec<Ty> = (0..*type_params).map(|_| types.fresh()).collect();
    let signature = types.import(table, Some(&params)).query(signature);
    fits(&types)?;
    if types.unify_queries(&self.marks, &signature, query) != Verdict::Success {
      return Ok(Vec::new());
    }
    let mut import = types.import(demands, Some(&params));
    let queries: Vec<Query> = queries.iter().map(|query| import.query(query)).collect();
    fits(&types)?;
    self.tail(depth, types, &queries)
  }

  /// Sub-questions from left to right: all results of one come before the next is asked.
  fn tail(&mut self, depth: usize, types: Table, queries: &[Query]) -> Result<Vec<Entry>, Stop> {
    let [query, rest @ ..] = queries else { return Ok(vec![Entry { types, trees: Vec::new() }]) };
    let mut found = Vec::new();
    for first in self.question(depth + 1, &types, query, false)? {
      for last in self.tail(depth, first.types, rest)? {
        let trees = first.trees.iter().cloned().chain(last.trees).collect();
        add(&mut found, Entry { types: last.types, trees })?;
      }
    }
    Ok(found)
  }
}

/// 14: a table that has passed 256 nodes.
fn fits(types: &Table) -> Result<(), Stop> {
  if types.len() > MOST_NODES { Err(14) } else { Ok(()) }
}

/// 16 and 17: an entry more.
fn add(found: &mut Vec<Entry>, entry: Entry) -> Result<(), Stop> {
  if found.len() == MOST_RESULTS {
    return Err(16);
  }
  if entry.trees.iter().map(Tree::size).sum::<usize>() > MOST_TREE_NODES {
    return Err(17);
  }
  found.push(entry);
  Ok(())
}
