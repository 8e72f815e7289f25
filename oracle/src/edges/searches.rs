//! What one search comes to.

use super::{Draft, Edge, Edges, Outcome};
use crate::{
  case::{Asked, Call},
  draft::{Binding, Definition, Generics, Impl, Query, Table, Trait},
  sheet::{flag, kind},
};

/// What one search comes to: modules, built-ins, meetings of types, and the order of outcomes.
pub fn searches() -> Vec<Edge> {
  let mut edges = Edges::default();
  module_edges(&mut edges);
  built_in_edges(&mut edges);
  meeting_edges(&mut edges);
  order_of_results(&mut edges);
  closing_edges(&mut edges);
  edges.0
}

/// One trait, one impl, one question; the named types stand in definition 1, the impl is bound in definition 0.
fn one_impl(
  type_params: u32,
  signature: impl FnOnce(&mut Table) -> Vec<u32>,
  question: impl FnOnce(&mut Table) -> Vec<u32>,
) -> Draft {
  let mut draft = Draft::default();
  let mut impl_ = Impl { query: Query { trait_: 1, args: Vec::new() }, ..Impl::default() };
  impl_.query.args = signature(&mut impl_.table);
  let arity = impl_.query.args.len() as u32;
  draft.query = Query { trait_: 1, args: question(&mut draft.table) };
  let sheet = &mut draft.sheet;
  sheet.traits.push(Trait { definition: 0, arity, inherent: 0 });
  sheet.generics.push(Generics { type_params, ..Generics::default() });
  sheet.impls.push(impl_);
  let bindings = vec![Binding { vis: 0, impl_: 0 }];
  sheet.definitions.push(Definition { bindings, ..Definition::default() });
  sheet.definitions.push(Definition::default());
  (sheet.structs, sheet.unions) = (vec![(1, 0), (1, 1)], vec![(1, 1)]);
  (sheet.opaques, sheet.enums, sheet.closures) = (vec![1], vec![1], vec![0, 1, 2, 3]);
  draft
}

fn params(many: u32) -> impl FnOnce(&mut Table) -> Vec<u32> {
  move |table| (0..many).map(|n| table.add(kind::PARAM, n, &[])).collect()
}

/// Nodes without children, all arguments.
fn leaves(kinds: &[u32]) -> impl FnOnce(&mut Table) -> Vec<u32> {
  move |table| kinds.iter().map(|&kind| table.add(kind, 0, &[])).collect()
}

fn module_edges(edges: &mut Edges) {
  // Kinds of the two inherent arguments.
  for (kinds, number, why) in [
    ([kind::UNKNOWN, kind::STRUCT], 18, "an unknown inherent argument"),
    ([kind::STRUCT, kind::UNKNOWN], 18, "a second inherent argument that is unknown"),
    ([kind::ERROR, kind::UNKNOWN], 19, "an Error before an unknown"),
    ([kind::UNKNOWN, kind::ERROR], 18, "an unknown before an Error"),
    ([kind::TUPLE, kind::NEVER], 0, "inherent arguments without a module"),
  ] {
    let mut draft = one_impl(2, params(2), leaves(&kinds));
    draft.sheet.traits[0].inherent = 2;
    let outcome =
      if number == 0 { Outcome::Found(Some(1)) } else { Outcome::Refused(number, Some(1)) };
    edges.add(draft.call(), outcome, why);
  }
  for (leaf, refs, number) in [
    (kind::UNKNOWN, 1, 20),
    (kind::UNKNOWN, 3, 20),
    (kind::ERROR, 0, 19),
    (kind::ERROR, 1, 19),
    (kind::ERROR, 2, 19),
    (kind::STRUCT, 0, 0),
    (kind::STRUCT, 2, 0),
    (kind::OPAQUE, 1, 0),
    (kind::ENUM, 1, 0),
    (kind::UNION, 1, 0),
    (kind::CLOSURE, 1, 20),
    (kind::TUPLE, 1, 20),
  ] {
    let mut draft = one_impl(1, params(1), |table| {
      let children: &[u32] = if leaf == kind::CLOSURE { &[0] } else { &[] };
      table.add(kind::NEVER, 0, &[]);
      let leaf = table.add(leaf, 0, children);
      vec![(0..refs).fold(leaf, |word, _| table.add(kind::REF, 0, &[word]))]
    });
    draft.sheet.traits[0].inherent = 1;
    // The impl is bound in the module alone.
    draft.sheet.definitions.swap(0, 1);
    let outcome =
      if number == 0 { Outcome::Found(Some(1)) } else { Outcome::Refused(number, Some(1)) };
    edges.add(
      draft.call(),
      outcome,
      format!("an inherent argument of kind {leaf} behind {refs} Refs"),
    );
  }
}

fn built_in_edges(edges: &mut Edges) {
  // Fork and Drop, both set; duplicate and erase; the impl is of no use here.
  let world = |node: (u32, u32)| {
    let question = move |table: &mut Table| {
      table.add(kind::NEVER, 0, &[]);
      let children: &[u32] = if node.0 == kind::CLOSURE { &[0] } else { &[] };
      vec![table.add(node.0, node.1, children)]
    };
    let mut draft = one_impl(0, leaves(&[kind::KEY]), question);
    draft.sheet.traits.push(Trait { definition: 0, arity: 1, inherent: 0 });
    (draft.sheet.fork, draft.sheet.drop) = (1, 2);
    (draft.sheet.duplicate, draft.sheet.erase) = (1, 1);
    draft
  };
  for id in 0..4 {
    let draft = world((kind::CLOSURE, id));
    edges.add(draft.flex(2), Outcome::Found(Some(4)), format!("flex on a closure of flex {id}"));
    edges.add(
      draft.flex(3),
      Outcome::Found(Some(4)),
      format!("flex on the inverse of a closure of flex {id}"),
    );
  }
  edges.add(world((kind::FN, 9)).flex(2), Outcome::Found(Some(4)), "flex on an upright Fn");
  edges.add(
    world((kind::FN, 9)).flex(3),
    Outcome::Found(Some(4)),
    "flex on an inverted Fn: the inverse has both",
  );
  edges.add(
    world((kind::DEFAULT, 0)).flex(2),
    Outcome::Found(Some(4)),
    "flex on Default: both ways, its own inverse",
  );
  edges.add(
    world((kind::DEFAULT, 0)).flex(3),
    Outcome::Found(Some(4)),
    "flex on an inverted Default",
  );
  edges.add(world((kind::ERROR, 0)).flex(2), Outcome::Found(Some(4)), "flex on Error");
  let mut draft = world((kind::FN, 9));
  (draft.sheet.duplicate, draft.sheet.erase) = (0, 0);
  edges.add(
    draft.flex(2),
    Outcome::Found(Some(4)),
    "flex on a Fn, duplicate and erase unset: neither tree",
  );
  let mut draft = world((kind::FN, 9));
  (draft.sheet.drop, draft.sheet.erase) = (1, 0);
  edges.add(
    draft.flex(2),
    Outcome::Found(Some(4)),
    "one trait as Fork and Drop: both trees are duplicate",
  );
  let mut draft = world((kind::FN, 9));
  draft.sheet.traits[0].inherent = 1;
  draft.sheet.traits[1].inherent = 1;
  edges.add(draft.flex(2), Outcome::Found(Some(4)), "a Fn as an inherent argument has no module");
  for count in 1_994..=2_001 {
    let end = count + 4;
    let outcome =
      if end > 2_000 { Outcome::Refused(24, Some(end)) } else { Outcome::Found(Some(end)) };
    edges.add(
      Call { count, ..world((kind::FN, 9)).flex(2) },
      outcome,
      format!("four questions from {count}"),
    );
  }
  // Duplicate is bound as well: the same tree twice.
  let mut draft = world((kind::FN, 9));
  draft.sheet.impls[0].table.0[0].kind = kind::FN;
  draft.sheet.impls[0].table.0[0].id = 9;
  edges.no(21, draft.flex(2), "a built-in and a candidate");
  edges.no(24, Call { count: 1_998, ..draft.flex(2) }, "24 is tested before 21");
  edges.no(21, draft.call(), "a built-in and a candidate, asked as impl");
  let basic = Call { asked: Asked::Impl { basic: 1 }, ..draft.call() };
  edges.no(20, basic.clone(), "basic skips built-ins, and the impl is not basic");
  draft.sheet.impls[0].flags = flag::BASIC;
  edges.ok(Call { asked: Asked::Impl { basic: 1 }, ..draft.call() }, "a basic impl, asked for");
  edges.ok(draft.call(), "a basic impl is no candidate where basic is not asked for");
  draft.sheet.impls[0].flags = flag::BASIC | flag::MANUAL;
  edges.no(20, Call { asked: Asked::Impl { basic: 1 }, ..draft.call() }, "a manual impl");
  draft.sheet.impls[0].flags = flag::BASIC | flag::UNSAFE;
  edges.no(20, Call { asked: Asked::Impl { basic: 1 }, ..draft.call() }, "an unsafe impl");
}

fn meeting_edges(edges: &mut Edges) {
  let mut meet = |number: u32, why: &str, draft: Draft| {
    let outcome =
      if number == 0 { Outcome::Found(Some(1)) } else { Outcome::Refused(number, Some(1)) };
    edges.add(draft.call(), outcome, why);
  };
  let pair = |kind: u32, id: u32, children: usize| {
    move |table: &mut Table| {
      let leaf = table.add(kind::NEVER, 0, &[]);
      vec![table.add(kind, id, &vec![leaf; children])]
    }
  };
  // One type of each kind against itself, against its inverse, and against other ids and counts.
  for (kind, id, other, children, meets_inverted) in [
    (kind::TUPLE, 0, 0, 1, false),
    (kind::TUPLE, 0, 0, 0, true),
    (kind::OPAQUE, 0, 0, 1, false),
    (kind::STRUCT, 0, 1, 0, false),
    (kind::STRUCT, 1, 0, 0, true),
    (kind::ENUM, 0, 0, 0, false),
    (kind::UNION, 0, 0, 0, true),
    (kind::FN, 5, 6, 0, false),
    (kind::CLOSURE, 1, 2, 2, false),
    (kind::REF, 0, 0, 1, false),
    (kind::KEY, 5, 6, 0, false),
    (kind::NEVER, 0, 0, 0, false),
    (kind::DEFAULT, 0, 0, 0, false),
  ] {
    let of = |what: &str| format!("kind {kind} with {children} children {what}");
    meet(0, &of("against itself"), one_impl(0, pair(kind, id, children), pair(kind, id, children)));
    let mut draft = one_impl(0, pair(kind, id, children), pair(kind, id, children));
    draft.query.args[0] ^= 1;
    meet(if meets_inverted { 0 } else { 20 }, &of("against its inverse"), draft.clone());
    draft.sheet.impls[0].query.args[0] ^= 1;
    meet(0, &of("inverted against inverted"), draft);
    if other != id {
      meet(
        20,
        &of("against another id"),
        one_impl(0, pair(kind, id, children), pair(kind, other, children)),
      );
    }
    if matches!(kind, kind::TUPLE | kind::CLOSURE) {
      meet(
        20,
        &of("against a child more"),
        one_impl(0, pair(kind, id, children), pair(kind, id, children + 1)),
      );
    }
  }
  meet(
    20,
    "Error against a known type",
    one_impl(0, leaves(&[kind::ERROR]), leaves(&[kind::NEVER])),
  );
  meet(20, "Error against Error", one_impl(0, leaves(&[kind::ERROR]), leaves(&[kind::ERROR])));
  meet(0, "an unknown joins Error", one_impl(0, leaves(&[kind::UNKNOWN]), leaves(&[kind::ERROR])));
  meet(0, "Error joins an unknown", one_impl(0, leaves(&[kind::ERROR]), leaves(&[kind::UNKNOWN])));
  meet(
    0,
    "unknown against unknown",
    one_impl(0, leaves(&[kind::UNKNOWN]), leaves(&[kind::UNKNOWN])),
  );
  let twice = |inverted: u32| {
    move |table: &mut Table| {
      let unknown = table.add(kind::UNKNOWN, 0, &[]);
      vec![unknown, unknown ^ inverted]
    }
  };
  meet(
    20,
    "an unknown never joins a type that contains it",
    one_impl(
      1,
      |table| {
        let param = table.add(kind::PARAM, 0, &[]);
        vec![param, table.add(kind::REF, 0, &[param])]
      },
      twice(0),
    ),
  );
  meet(
    20,
    "an unknown is not its own inverse",
    one_impl(
      1,
      |table| {
        let param = table.add(kind::PARAM, 0, &[]);
        vec![param, param]
      },
      twice(1),
    ),
  );
  meet(
    0,
    "an unknown and its inverse, twice",
    one_impl(
      1,
      |table| {
        let param = table.add(kind::PARAM, 0, &[]);
        vec![param, param ^ 1]
      },
      twice(1),
    ),
  );
  let same = |kind: u32, inverted: u32| {
    move |table: &mut Table| {
      let word = table.add(kind, 0, &[]);
      vec![word, word ^ inverted]
    }
  };
  for (kind, number) in
    [(kind::DEFAULT, 0), (kind::ERROR, 0), (kind::TUPLE, 0), (kind::NEVER, 20), (kind::STRUCT, 20)]
  {
    let draft = one_impl(
      1,
      |table| {
        let param = table.add(kind::PARAM, 0, &[]);
        vec![param, param]
      },
      same(kind, 1),
    );
    meet(number, &format!("one node of kind {kind} against its own inverse"), draft);
  }
  meet(
    20,
    "two Default nodes never meet inverted",
    one_impl(
      1,
      |table| {
        let param = table.add(kind::PARAM, 0, &[]);
        vec![param, param ^ 1]
      },
      leaves(&[kind::DEFAULT, kind::DEFAULT]),
    ),
  );
}

fn order_of_results(edges: &mut Edges) {
  // A question that generics' parameters answer, its inherent argument unknown.
  let mut draft = one_impl(0, leaves(&[kind::NEVER]), leaves(&[kind::UNKNOWN]));
  draft.sheet.generics[0].impl_params.push(Query { trait_: 1, args: vec![0] });
  draft.sheet.generics[0].table.add(kind::KEY, 3, &[]);
  draft.sheet.impls[0].query = Query::default();
  draft.sheet.impls[0].table = Table::default();
  edges.ok(draft.call(), "a parameter answers");
  draft.sheet.traits[0].inherent = 1;
  edges.no(18, draft.call(), "an unknown inherent argument, though a parameter answers");
  draft.table.0[0].kind = kind::ERROR;
  edges.no(19, draft.call(), "an Error inherent argument");
  draft.sheet.traits[0].inherent = 0;
  draft.table.0[0].kind = kind::UNKNOWN;
  draft.sheet.generics[0].impl_params = vec![draft.sheet.generics[0].impl_params[0].clone(); 2];
  edges.no(21, draft.call(), "two parameters");
  draft.sheet.generics[0].impl_params.push(Query::default());
  edges.no(21, draft.call(), "an Error parameter answers nothing");

  // An impl that needs what nothing gives.
  let mut draft = one_impl(0, leaves(&[kind::NEVER]), leaves(&[kind::NEVER]));
  draft
    .sheet
    .generics
    .push(Generics { impl_params: vec![Query::default()], ..Generics::default() });
  draft.sheet.impls[0].generics = 1;
  edges.add(
    draft.call(),
    Outcome::Refused(20, Some(2)),
    "an impl parameter of trait? 0 is asked and finds nothing",
  );

  // A binding, its vis and the source.
  for (source, vis, number) in [(0, 0, 0), (0, 1, 0), (0, 2, 20), (1, 0, 20), (1, 2, 20)] {
    let mut draft = one_impl(0, leaves(&[kind::NEVER]), leaves(&[kind::NEVER]));
    draft.sheet.traits[0].definition = 1;
    draft.sheet.definitions[0].bindings[0].vis = vis;
    let outcome = if number == 0 { Outcome::Found(Some(1)) } else { Outcome::Refused(20, Some(1)) };
    edges.add(
      Call { source, ..draft.call() },
      outcome,
      format!("bound in 0 with vis {vis}, from {source}"),
    );
  }
}

/// Closing joins that fail: the answer stands with the types as they are then.
fn closing_edges(edges: &mut Edges) {
  // T[Z, A, ~A] against T[round x, y, x], where x and y are Tuples of one Default.
  let signature = |table: &mut Table| {
    let params: Vec<u32> = (0..2).map(|n| table.add(kind::PARAM, n, &[])).collect();
    vec![params[0], params[1], params[1] ^ 1]
  };
  let question = |round: u32| {
    move |table: &mut Table| {
      let default = table.add(kind::DEFAULT, 0, &[]);
      let [x, y] = [0; 2].map(|_| table.add(kind::TUPLE, 0, &[default]));
      vec![table.add(round, 0, &[x]), y, x]
    }
  };
  edges.add(
    one_impl(2, signature, question(kind::REF)).call(),
    Outcome::Closed(1),
    "the closing assertion of impl",
  );
  let tupled = |types: &mut Table, args: Vec<u32>| vec![types.add(kind::TUPLE, 0, &args)];
  let mut draft = one_impl(
    2,
    |table| {
      let args = signature(table);
      tupled(table, args)
    },
    |table| {
      let args = question(kind::TUPLE)(table);
      tupled(table, args)
    },
  );
  (draft.sheet.fork, draft.sheet.drop) = (1, 1);
  edges.add(draft.flex(draft.query.args[0]), Outcome::Closed(4), "the closing assertion of flex");
}
