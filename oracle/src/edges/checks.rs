//! Checks 1 to 13 at their edges.

use super::{Draft, Edge, Edges, NODE_OF_KIND, Outcome, impl_call};
use crate::{
  case::{Answer, Asked, Call, Case},
  draft::{Query, impl_question},
  layout::Style,
  rng::Rng,
  sheet::{chain, header, kind},
};

/// Checks 1 to 13 at their edges, on both sides.
pub fn checks() -> Vec<Edge> {
  let mut edges = Edges::default();
  entry_edges(&mut edges);
  order_edges(&mut edges);
  chain_edges(&mut edges);
  value_edges(&mut edges);
  node_edges(&mut edges);
  cycle_edges(&mut edges);
  question_edges(&mut edges);
  edges.0
}

fn entry_edges(edges: &mut Edges) {
  edges.rich_call(0, "all of it accepted", |_| {});
  edges.rich_call(1, "an empty sheet", |call| call.sheet.clear());
  edges.rich_call(1, "a sheet of 15 words", |call| call.sheet.truncate(15));
  let header: Vec<u32> = [1].into_iter().chain([0; 15]).collect();
  edges.rich_call(10, "a sheet of 16 words: no definition, so no source", |call| {
    call.sheet = header.clone()
  });
  edges.add(
    Case::List(header),
    Outcome::Printed(Answer::List(Vec::new())),
    "a sheet without definitions lists nothing",
  );
  edges.add(
    Case::List(vec![1; 15]),
    Outcome::Refused(1, None),
    "the listing of a sheet of 15 words",
  );
  edges.rich_call(2, "a question of 2 words", |call| call.question.truncate(2));
  edges.rich_call(2, "an empty question", |call| call.question.clear());
  edges.rich_call(3, "an answer buffer of 10,239 words", |call| call.answer_words = 10_239);
  edges.rich_call(3, "no answer buffer", |call| call.answer_words = 0);
  edges.rich_call(4, "no workspace", |call| call.work_words = 0);
  edges.rich_call(5, "a count of 1,000,001", |call| call.count = 1_000_001);
  edges.rich_call(5, "the largest count", |call| call.count = u32::MAX);
  edges.rich_call(18, "a count of 1,000,000 is taken", |call| call.count = 1_000_000);
  for edition in [0, 2, 3, u32::MAX] {
    edges.rich_call(6, "an edition other than 1", |call| call.sheet[0] = edition);
  }
  edges.rich_call(10, "source 3 of 3", |call| call.source = 3);
  edges.rich_call(10, "the largest source", |call| call.source = u32::MAX);
  edges.rich_call(10, "generics 2 of 2", |call| call.generics = 2);
  edges.rich_call(10, "basic flag 2", |call| call.asked = Asked::Impl { basic: 2 });
  edges.rich_call(20, "basic flag 1 finds no impl that is not basic", |call| {
    call.asked = Asked::Impl { basic: 1 };
  });
}

type Change = fn(&mut Call);

/// Two reasons at once: the earliest wins.
fn order_edges(edges: &mut Edges) {
  let reasons: [(u32, Change); 13] = [
    (1, |call| call.sheet.truncate(15)),
    (2, |call| call.question.truncate(2)),
    (3, |call| call.answer_words = 0),
    (4, |call| call.work_words = 0),
    (5, |call| call.count = 1_000_001),
    (6, |call| call.sheet[0] = 2),
    (7, |call| call.sheet[header::ENUMS] = 15),
    (8, |call| call.sheet[header::PRELUDE] = 4),
    (9, |call| knot_in_sheet(&mut call.sheet)),
    (10, |call| call.source = 9),
    (11, |call| call.question[2] = 2),
    (12, |call| call.question[1] = 9),
    (13, |call| knot_in_question(&mut call.question)),
  ];
  for (n, &(number, reason)) in reasons.iter().enumerate() {
    // Each alone, and before the next three.
    for &(later, second) in reasons[n..].iter().take(4) {
      let mut call = Draft::rich().call();
      if later != number {
        second(&mut call);
      }
      reason(&mut call);
      edges.no(number, call, format!("{number} before {later}"));
    }
  }
  let mut draft = Draft::rich();
  (draft.sheet.fork, draft.sheet.drop) = (0, 0);
  edges.no(22, draft.flex(0), "Fork unset before Drop unset");
  let mut call = draft.flex(0);
  call.question[2] = 1;
  edges.no(12, call, "12 before 22");
  draft.sheet.fork = 1;
  edges.no(23, draft.flex(0), "Drop unset");
  edges.no(23, Call { count: 2_000, ..draft.flex(0) }, "Drop unset, at the limit");
}

/// The node that impl 0's argument names becomes its own child.
fn knot_in_sheet(sheet: &mut [u32]) {
  let impl_ = chain(sheet, sheet[header::IMPLS])[0];
  let node = chain(sheet, sheet[impl_ + 4])[1];
  let cell = sheet[node + 4] as usize;
  sheet[cell + 1] = 2;
}

fn knot_in_question(question: &mut [u32]) {
  let node = chain(question, question[0])[1];
  let cell = question[node + 4] as usize;
  question[cell + 1] = 3;
}

/// Where a head stands in a sheet.
type Place = fn(&[u32]) -> usize;

fn chain_edges(edges: &mut Edges) {
  for word in header::DEFINITIONS..=header::IMPORTS {
    edges.rich_call(7, "a head of 15", |call| call.sheet[word] = 15);
    edges
      .rich_call(7, "a head at the sheet's end", |call| call.sheet[word] = call.sheet.len() as u32);
    edges.rich_call(7, "a head whose record passes the end", |call| {
      call.sheet[word] = call.sheet.len() as u32 - 1;
    });
    edges.rich_call(7, "the largest head", |call| call.sheet[word] = u32::MAX);
    edges.rich_call(7, "a next that is its own record", |call| {
      let record = call.sheet[word] as usize;
      call.sheet[record] = record as u32;
    });
    edges.rich_call(7, "a next inside its own record", |call| {
      let record = call.sheet[word] as usize;
      call.sheet[record] = record as u32 + 1;
    });
  }
  // Each kind of record that is headed elsewhere: where its head stands.
  let heads: [(&str, Place); 9] = [
    ("impl bindings", |s| chain(s, s[header::DEFINITIONS])[2] + 4),
    ("named members", |s| chain(s, s[header::DEFINITIONS])[2] + 5),
    ("implicit members", |s| chain(s, s[header::DEFINITIONS])[2] + 6),
    ("a table of generics", |s| chain(s, s[header::GENERICS])[0] + 2),
    ("impl parameters", |s| chain(s, s[header::GENERICS])[0] + 3),
    ("arguments of an impl parameter", |s| {
      let generics = chain(s, s[header::GENERICS])[1];
      chain(s, s[generics + 3])[0] + 2
    }),
    ("an impl's table", |s| chain(s, s[header::IMPLS])[1] + 4),
    ("an impl's arguments", |s| chain(s, s[header::IMPLS])[1] + 5),
    ("children of a kind that has none", |s| {
      let generics = chain(s, s[header::GENERICS])[1];
      chain(s, s[generics + 2])[0] + 4
    }),
  ];
  for (what, place) in heads {
    for (head, why) in [(15, "below 16"), (u32::MAX, "past the end")] {
      edges.rich_call(7, &format!("a head of {what} {why}"), |call| {
        let place = place(&call.sheet);
        call.sheet[place] = head;
      });
    }
    edges.rich_call(7, &format!("a head of {what} at the last word"), |call| {
      let place = place(&call.sheet);
      call.sheet[place] = call.sheet.len() as u32 - 1;
    });
  }
  edges.rich_call(7, "arguments of trait? 0 break the rule all the same", |call| {
    let impl_ = chain(&call.sheet, call.sheet[header::IMPLS])[1];
    call.sheet[impl_ + 3] = 0;
    call.sheet[impl_ + 5] = 15;
  });
  sharing_edges(edges);
}

/// Layouts that the chain rule allows.
fn sharing_edges(edges: &mut Edges) {
  edges
    .rich_call(0, "words that no chain reaches are free", |call| call.sheet.extend([u32::MAX; 5]));
  edges.rich_call(0, "a record that ends with the sheet", |call| {
    let place = call.sheet.len() as u32;
    call.sheet.extend([0, 2]);
    call.sheet[header::ENUMS] = place;
  });
  edges.rich_call(7, "a record that ends one word past the sheet", |call| {
    let place = call.sheet.len() as u32;
    call.sheet.push(0);
    call.sheet[header::ENUMS] = place;
  });
  edges.rich_call(0, "opaques and enums share a record", |call| {
    call.sheet[header::OPAQUES] = call.sheet[header::ENUMS];
  });
  edges.rich_call(0, "structs and unions share records", |call| {
    call.sheet[header::UNIONS] = call.sheet[header::STRUCTS];
  });
  edges.rich_call(0, "an import that begins inside a definition", |call| {
    let definition = chain(&call.sheet, call.sheet[header::DEFINITIONS])[1];
    call.sheet[definition + 5] = 0;
    call.sheet[header::IMPORTS] = definition as u32 + 5;
  });
  edges.rich_call(0, "a head that points backwards", |call| {
    let impls = chain(&call.sheet, call.sheet[header::IMPLS]);
    let place = call.sheet.len();
    let mut copy = call.sheet[impls[1]..impls[1] + 6].to_vec();
    copy[0] = 0;
    call.sheet.extend(copy);
    call.sheet[impls[0]] = place as u32;
  });
  for seed in 0..12 {
    let draft = Draft::rich();
    let rng = &mut Rng::new(seed);
    let style = Style { share: seed % 2 == 0, overlap: seed % 3 != 0, shuffle: true, gaps: 20 };
    let sheet = draft.sheet.words(style, rng);
    let question = impl_question(&draft.table, &draft.query, style, rng);
    edges.ok(impl_call(sheet, 0, 0, question), "records shuffled, shared, overlapping, with gaps");
  }
}

fn value_edges(edges: &mut Edges) {
  for (word, many, what) in [
    (header::PRELUDE, 3, "prelude"),
    (header::FORK, 4, "fork"),
    (header::DROP, 4, "drop"),
    (header::DUPLICATE, 2, "duplicate"),
    (header::ERASE, 2, "erase"),
  ] {
    edges
      .rich_call(8, &format!("{what}? {} of {many}", many + 1), |call| call.sheet[word] = many + 1);
    edges.rich_call(8, &format!("the largest {what}?"), |call| call.sheet[word] = u32::MAX);
    edges.rich_call(0, &format!("{what} unset"), |call| call.sheet[word] = 0);
  }
  edges.rich(8, "fork of arity 2", |d| d.sheet.fork = 2);
  edges.rich(8, "drop of arity 0", |d| d.sheet.drop = 4);
  edges.rich(8, "a definition that is its own parent", |d| d.sheet.definitions[1].parent = 2);
  edges.rich(8, "a parent with a larger id", |d| d.sheet.definitions[1].parent = 3);
  edges.rich(8, "definition 0 with a parent", |d| d.sheet.definitions[0].parent = 1);
  edges.rich(0, "a parent just below", |d| d.sheet.definitions[2].parent = 2);
  edges.rich(8, "a trait vis out of range where trait? is 0", |d| {
    d.sheet.definitions[2].trait_vis = 4
  });
  edges.rich(8, "trait? 5 of 4", |d| d.sheet.definitions[0].trait_ = 5);
  edges.rich(8, "a binding's vis out of range", |d| d.sheet.definitions[0].bindings[0].vis = 4);
  edges.rich(8, "a binding of impl 2 of 2", |d| d.sheet.definitions[0].bindings[0].impl_ = 2);
  edges.rich(8, "a member's vis out of range", |d| d.sheet.definitions[0].named[0].vis = 4);
  edges.rich(8, "a member that is neither child nor import", |d| {
    d.sheet.definitions[0].named[0].import = 2
  });
  edges.rich(8, "child 3 of 3", |d| d.sheet.definitions[0].named[0].id = 3);
  edges.rich(8, "import 1 of 1", |d| d.sheet.definitions[0].implicit[0].id = 1);
  edges.rich(8, "an import of definition 3 of 3", |d| d.sheet.imports[0] = 4);
  edges.rich(8, "9 type parameters", |d| d.sheet.generics[0].type_params = 9);
  edges.rich(0, "8 type parameters", |d| d.sheet.generics[0].type_params = 8);
  edges.rich(8, "5 impl parameters", |d| {
    d.sheet.generics[0].impl_params = vec![Query { trait_: 4, args: Vec::new() }; 5];
  });
  edges.rich(0, "4 impl parameters, each the same", |d| {
    d.sheet.generics[1].impl_params = vec![d.sheet.generics[1].impl_params[0].clone(); 4];
  });
  edges.rich(8, "an impl parameter of trait? 5 of 4", |d| {
    d.sheet.generics[1].impl_params[0].trait_ = 5
  });
  edges.rich(8, "an impl parameter without its argument", |d| {
    d.sheet.generics[1].impl_params[0].args.clear()
  });
  edges.rich(8, "an impl parameter with trait? 0 and an argument", |d| {
    d.sheet.generics[1].impl_params[0].trait_ = 0
  });
  edges.rich(8, "an impl parameter whose argument names no node", |d| {
    d.sheet.generics[1].impl_params[0].args[0] = 2
  });
  edges.rich(8, "a trait's definition out of range", |d| d.sheet.traits[3].definition = 3);
  edges.rich(8, "an arity of 5", |d| d.sheet.traits[1].arity = 5);
  edges.rich(0, "an arity of 4, and as many inherent", |d| {
    (d.sheet.traits[1].arity, d.sheet.traits[1].inherent) = (4, 4)
  });
  edges.rich(8, "an inherent count over the arity", |d| d.sheet.traits[1].inherent = 3);
  edges.rich(8, "an impl of generics 2 of 2", |d| d.sheet.impls[1].generics = 2);
  edges.rich(8, "flags 16", |d| d.sheet.impls[1].flags = 16);
  edges.rich(20, "flags 15: manual and unsafe impls never enter", |d| d.sheet.impls[1].flags = 15);
  edges.rich(20, "an Error impl never enters", |d| d.sheet.impls[1].query = Query::default());
  edges.rich(8, "an impl of trait? 5 of 4", |d| d.sheet.impls[1].query.trait_ = 5);
  edges.rich(8, "an impl with trait? 0 and an argument", |d| d.sheet.impls[1].query.trait_ = 0);
  edges.rich(8, "an argument too many", |d| d.sheet.impls[1].query.args.push(0));
  edges.rich(8, "an argument too few", |d| d.sheet.impls[1].query.args.clear());
  edges.rich(8, "an argument that names no node", |d| d.sheet.impls[1].query.args[0] = 2);
  edges.rich(20, "an argument that names the last node, inverted", |d| {
    d.sheet.impls[1].query.args[0] = 1
  });
  edges.rich(8, "an opaque's definition out of range", |d| d.sheet.opaques[0] = 3);
  edges.rich(8, "an enum's definition out of range", |d| d.sheet.enums[0] = 3);
  edges.rich(8, "a struct's definition out of range", |d| d.sheet.structs[0].0 = 3);
  edges.rich(8, "a struct's mark of 2", |d| d.sheet.structs[0].1 = 2);
  edges.rich(8, "a union's definition out of range", |d| d.sheet.unions[0].0 = 3);
  edges.rich(8, "a union's mark of 2", |d| d.sheet.unions[0].1 = 2);
  edges.rich(8, "a closure's flex of 4", |d| d.sheet.closures[0] = 4);
}

fn node_edges(edges: &mut Edges) {
  let at = |kind: u32| NODE_OF_KIND[kind as usize];
  let many = [1, 0, 1, 1, 2, 1, 1, 0, 1, 1, 0, 1, 1, 1];
  for kind in [0, 2, 3, 4, 5, 6, 8, 9, 11, 12, 13] {
    let id = many[kind as usize];
    edges.kinds(8, &format!("id {id} of a node of kind {kind}"), |d| {
      d.sheet.impls[1].table.0[at(kind)].id = id
    });
  }
  edges.kinds(8, "a Param in generics without type parameters", |d| {
    d.sheet.impls[1].table.add(kind::PARAM, 0, &[]);
  });
  edges.kinds(8, "Param 1 of 1 in an impl's table", |d| d.sheet.impls[0].table.0[0].id = 1);
  edges.kinds(8, "Param 1 of 1 in generics' own table", |d| d.sheet.generics[1].table.0[0].id = 1);
  edges.kinds(8, "kind 14", |d| d.sheet.impls[1].table.0[at(kind::ERROR)].kind = 14);
  edges.kinds(8, "the largest kind", |d| d.sheet.impls[1].table.0[at(kind::ERROR)].kind = u32::MAX);
  edges.kinds(8, "an inversion of 2", |d| d.sheet.impls[1].table.0[at(kind::ERROR)].inverted = 2);
  edges
    .kinds(8, "an inverted unknown", |d| d.sheet.impls[1].table.0[at(kind::UNKNOWN)].inverted = 1);
  edges.kinds(0, "an inverted Error", |d| d.sheet.impls[1].table.0[at(kind::ERROR)].inverted = 1);
  for kind in [0, 7, 10, 11, 12, 13] {
    edges.kinds(8, &format!("a child of a node of kind {kind}"), |d| {
      d.sheet.impls[1].table.0[at(kind)].children.push(0);
    });
  }
  for kind in [2, 3, 4, 5, 6, 8] {
    edges.kinds(8, &format!("9 children of a node of kind {kind}"), |d| {
      d.sheet.impls[1].table.0[at(kind)].children = vec![24; 9];
    });
  }
  for kind in [2, 3, 5, 6, 8] {
    edges.kinds(0, &format!("8 children of a node of kind {kind}"), |d| {
      d.sheet.impls[1].table.0[at(kind)].children = vec![24; 8];
    });
  }
  edges.kinds(8, "a Closure without children", |d| {
    d.sheet.impls[1].table.0[at(kind::CLOSURE)].children.clear()
  });
  edges.kinds(8, "a Ref without a child", |d| {
    d.sheet.impls[1].table.0[at(kind::REF)].children.clear()
  });
  edges.kinds(8, "a Ref with two children", |d| {
    d.sheet.impls[1].table.0[at(kind::REF)].children.push(0)
  });
  edges.kinds(8, "a child that names no node", |d| {
    d.sheet.impls[1].table.0[at(kind::REF)].children[0] = 26
  });
  edges.kinds(8, "a child of the largest word", |d| {
    d.sheet.impls[1].table.0[at(kind::REF)].children[0] = u32::MAX
  });
}

fn cycle_edges(edges: &mut Edges) {
  let at = |kind: u32| NODE_OF_KIND[kind as usize];
  let word = |kind: u32| 2 * at(kind) as u32;
  edges.kinds(9, "a type that is its own child", |d| {
    d.sheet.impls[1].table.0[at(kind::REF)].children[0] = word(kind::REF);
  });
  edges.kinds(9, "a type that is its own child, inverted", |d| {
    d.sheet.impls[1].table.0[at(kind::REF)].children[0] = word(kind::REF) + 1;
  });
  edges.kinds(9, "two types that reach each other", |d| {
    d.sheet.impls[1].table.0[at(kind::REF)].children[0] = word(kind::TUPLE);
    d.sheet.impls[1].table.0[at(kind::TUPLE)].children[1] = word(kind::REF);
  });
  edges.kinds(0, "two types that reach a third", |d| {
    d.sheet.impls[1].table.0[at(kind::REF)].children[0] = word(kind::TUPLE);
    d.sheet.impls[1].table.0[at(kind::TUPLE)].children[1] = word(kind::KEY);
  });
  edges.kinds(9, "a cycle in the table of generics that nothing uses", |d| {
    d.sheet.generics[0].table.add(kind::REF, 0, &[0]);
  });
  edges.kinds(13, "a cycle in the question that its argument does not reach", |d| {
    d.table.add(kind::REF, 0, &[4]);
  });
  edges.kinds(13, "a cycle in the question", |d| {
    d.table.0[0].children = vec![2];
  });
}

fn question_edges(edges: &mut Edges) {
  for (head, why) in [(2, "below 3"), (1, "of 1"), (u32::MAX, "past the end")] {
    edges.rich_call(11, &format!("a table head {why}"), |call| call.question[0] = head);
    edges.rich_call(11, &format!("an argument head {why}"), |call| call.question[2] = head);
    edges.rich_call(11, &format!("a child head {why}"), |call| {
      let node = call.question[0] as usize;
      call.question[node + 4] = head;
    });
  }
  edges.rich_call(11, "an argument that passes the end", |call| {
    call.question[2] = call.question.len() as u32 - 1
  });
  edges.rich_call(11, "a next inside its own record", |call| {
    let node = call.question[0] as usize;
    call.question[node] = node as u32 + 4;
  });
  edges.rich_call(12, "trait? 5 of 4", |call| call.question[1] = 5);
  edges.rich_call(12, "trait? 0 with an argument", |call| call.question[1] = 0);
  edges.rich_call(12, "an argument list that does not fit its trait", |call| call.question[1] = 2);
  edges.rich_call(20, "another trait of the same arity", |call| call.question[1] = 3);
  edges.rich(12, "an argument that names no node", |d| d.query.args[0] = 4);
  edges.rich(12, "a Param under generics without type parameters", |d| {
    d.table.0[0].kind = kind::PARAM
  });
  edges.rich(12, "struct 2 of 2", |d| d.table.0[0].id = 2);
  edges.rich(12, "an inverted unknown", |d| (d.table.0[0].kind, d.table.0[0].inverted) = (0, 1));
  edges.rich(12, "kind 14", |d| d.table.0[0].kind = 14);
  edges.rich(12, "9 children", |d| d.table.0[1].children = vec![0; 9]);
  edges.rich(12, "a Ref with two children", |d| {
    (d.table.0[1].kind, d.table.0[1].id, d.table.0[1].children) = (9, 0, vec![0, 0])
  });
  edges.rich(12, "a child that names no node", |d| d.table.0[1].children = vec![4]);
  let draft = Draft::rich();
  let unknown =
    Call { generics: 1, ..impl_call(draft.call().sheet, 0, 0, vec![3, 1, 8, 0, 1, 0, 0, 0, 0, 0]) };
  edges.ok(unknown, "a Param under generics with one: found as parameter 0");
  edges.no(
    20,
    impl_call(draft.call().sheet, 0, 0, vec![0, 4, 0]),
    "a question of 3 words, of a trait without arguments",
  );
  edges.no(
    20,
    impl_call(draft.call().sheet, 0, 0, vec![0, 0, 0]),
    "trait? 0 is asked and finds nothing",
  );
  edges.add(draft.flex(0), Outcome::Found(Some(4)), "flex on a leaf");
  edges.no(12, draft.flex(4), "a type word that names no node");
  edges.no(12, draft.flex(u32::MAX), "the largest type word");
  let mut call = draft.flex(0);
  call.question[2] = 1;
  edges.no(12, call.clone(), "word 2 of a flex question is 1");
  call.question[2] = u32::MAX;
  edges.no(12, call.clone(), "word 2 of a flex question is no head, and not 0");
  call.question = vec![0, 0, 0];
  edges.no(12, call, "a flex question without nodes");
  edges.no(24, Call { count: 1_000_000, ..draft.flex(0) }, "a flex call far above the limit");
  edges.no(10, Call { generics: 2, ..draft.flex(0) }, "a flex call with generics 2 of 2");
}
