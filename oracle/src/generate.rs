//! Cases, seeded and repeatable: sheets and questions that pass checks 1 to 13, of many themes.

use crate::{
  case::{ANSWER_WORDS, Answer, Asked, Call, Case, WORK_WORDS},
  checks::check_call,
  draft::{
    Binding, Definition, Generics, Impl, Member, Query, Table, Trait, flex_question, impl_question,
  },
  layout::Style,
  model,
  rng::Rng,
  rust::STEPS_LIMIT,
  sheet::{flag, kind},
  world::{Asking, World, shuffle_nodes},
};

/// Case `index` of a seed. It passes checks 1 to 13.
pub fn case(seed: u64, index: u64) -> Case {
  let mut rng =
    Rng::new(seed.wrapping_mul(0x9e37_79b9).wrapping_add(index).rotate_left(17) ^ index);
  loop {
    let mut call = random_call(&mut rng);
    match check_call(&call, WORK_WORDS) {
      Ok(()) if rng.chance(3) => return Case::List(call.sheet),
      Ok(()) => {
        rein_in(&mut call, &mut rng);
        return Case::Call(call);
      }
      // Only its length may be wrong with a case.
      Err(refusal) => assert!(refusal.number < 3, "{} in {}", refusal.why, Case::Call(call)),
    }
  }
}

/// Nested to 2,000 steps the Rust takes seconds: most searches nested too deep begin near the limit.
fn rein_in(call: &mut Call, rng: &mut Rng) {
  let deep = |call: &Call| matches!(model::call(call, STEPS_LIMIT), Answer::No(15, _));
  if call.count < 1_900 && deep(call) && rng.chance(99) {
    call.count = rng.range(1_940, 1_990) as u32;
  }
}

type Theme = fn(&mut Rng) -> Call;

pub(crate) fn random_call(rng: &mut Rng) -> Call {
  let themes: [(usize, Theme); 16] = [
    (34, impl_of_a_world),
    (20, flex_of_a_world),
    (8, meetings),
    (7, nested),
    (5, two_ways_flexible),
    (5, fork_against_drop),
    (4, against_its_inverse),
    (4, closures),
    (4, many_results),
    (2, large_trees),
    (3, many_nodes),
    (3, without_end),
    (6, members),
    (5, behind_refs),
    (1, large_question),
    (1, large_chart),
  ];
  let weights: Vec<usize> = themes.iter().map(|theme| theme.0).collect();
  themes[rng.weighted(&weights)].1(rng)
}

/// What is asked: a trait? and arguments, or a type.
enum Question {
  Impl(Query),
  Flex(u32),
}

/// Lays a sheet and a question out, and adds the numbers.
fn call(world: World<'_>, mut asking: Asking, mut question: Question, generics: u32) -> Call {
  let World { rng, sheet, source } = world;
  stir(rng, &mut asking, &mut question);
  let style = Style::random(rng);
  let words = sheet.words(style, rng);
  let (asked, question) = written(rng, &asking, &question, style);
  Call {
    asked,
    source,
    generics,
    count: start(rng),
    sheet: words,
    question,
    answer_words: ANSWER_WORDS,
    work_words: WORK_WORDS,
  }
}

/// Adds a node that nothing names to some questions, and puts the nodes of some in another order.
fn stir(rng: &mut Rng, asking: &mut Asking, question: &mut Question) {
  if rng.chance(15) {
    asking.table.add(kind::UNKNOWN, 0, &[]);
  }
  shuffle_nodes(rng, &mut asking.table, |change| match question {
    Question::Impl(query) => change(&mut query.args),
    Question::Flex(word) => {
      let mut words = vec![*word];
      change(&mut words);
      *word = words[0];
    }
  });
}

/// The form and the words of a question.
fn written(rng: &mut Rng, asking: &Asking, question: &Question, style: Style) -> (Asked, Vec<u32>) {
  match question {
    Question::Impl(query) => {
      let basic = u32::from(rng.chance(6));
      (Asked::Impl { basic }, impl_question(&asking.table, query, style, rng))
    }
    Question::Flex(word) => (Asked::Flex, flex_question(&asking.table, *word, style, rng)),
  }
}

/// Several questions in one world, impl and flex: the sheet's words, the source and the generics, and the questions as calls.
pub(crate) fn calls_of_a_world(rng: &mut Rng, many: usize) -> Vec<Call> {
  let mut world = World::new(rng);
  world.add_flex_traits();
  for _ in 0..world.rng.range(1, 6) {
    let trait_ = world.rng.below(world.sheet.traits.len()) as u32;
    world.add_impl(trait_);
  }
  world.set_duplicate_and_erase();
  let generics = world.rng.below(world.sheet.generics.len());
  let asked = Vec::from_iter((0..many).map(|_| match world.rng.chance(50) {
    true => impl_asked(&mut world, generics),
    false => flex_asked(&mut world, generics),
  }));
  let World { rng, sheet, source } = world;
  let style = Style::random(rng);
  let words = sheet.words(style, rng);
  let calls = asked.into_iter().map(|(mut asking, mut question)| {
    stir(rng, &mut asking, &mut question);
    let (asked, question) = written(rng, &asking, &question, style);
    Call {
      asked,
      source,
      generics: generics as u32,
      count: 0,
      sheet: words.clone(),
      question,
      answer_words: ANSWER_WORDS,
      work_words: WORK_WORDS,
    }
  });
  calls.collect()
}

/// A start count: most often 0, else near the limit, below it or far above.
fn start(rng: &mut Rng) -> u32 {
  let count = match rng.weighted(&[72, 20, 5, 3]) {
    0 => 0,
    1 => rng.range(1_985, 2_001),
    2 => rng.below(2_000),
    _ => rng.pick(&[2_000, 2_004, 65_536, 999_999, 1_000_000]),
  };
  count as u32
}

fn impl_of_a_world(rng: &mut Rng) -> Call {
  let mut world = World::new(rng);
  if world.rng.chance(30) {
    world.add_flex_traits();
  }
  for _ in 0..world.rng.range(1, 5) {
    let trait_ = world.rng.below(world.sheet.traits.len()) as u32;
    world.add_impl(trait_);
  }
  world.set_duplicate_and_erase();
  let generics = world.rng.below(world.sheet.generics.len());
  let (asking, question) = impl_asked(&mut world, generics);
  call(world, asking, question, generics as u32)
}

/// An impl question in a world, from generics of it.
fn impl_asked(world: &mut World<'_>, generics: usize) -> (Asking, Question) {
  let mut asking =
    Asking { params: world.sheet.generics[generics].type_params, ..Asking::default() };
  let query = ask(world, &mut asking, generics);
  if world.rng.chance(35) {
    world.disturb(&mut asking);
  }
  (asking, Question::Impl(query))
}

/// A question that some impl fits, one of the generics' own parameters, or a random one.
fn ask(world: &mut World<'_>, asking: &mut Asking, generics: usize) -> Query {
  let own = world.sheet.generics[generics].clone();
  if !own.impl_params.is_empty() && world.rng.chance(40) {
    asking.table = own.table;
    return world.rng.pick(&own.impl_params);
  }
  if world.rng.chance(1) {
    return Query::default();
  }
  let trait_ = if world.sheet.impls.is_empty() || world.rng.chance(10) {
    world.rng.below(world.sheet.traits.len()) as u32
  } else {
    let id = world.rng.below(world.sheet.impls.len());
    match world.sheet.impls[id].query.trait_ {
      0 => 0,
      trait_ => trait_ - 1,
    }
  };
  let depth = world.rng.range(0, 4);
  let args = world.instance(asking, trait_, depth);
  Query { trait_: trait_ + 1, args }
}

fn flex_of_a_world(rng: &mut Rng) -> Call {
  let mut world = World::new(rng);
  world.add_flex_traits();
  let traits = world.sheet.traits.len() as u32;
  for _ in 0..world.rng.range(0, 4) {
    let trait_ = if world.rng.chance(80) {
      traits - 1 - world.rng.below(2) as u32
    } else {
      world.rng.below(traits as usize) as u32
    };
    world.add_impl(trait_);
  }
  world.set_duplicate_and_erase();
  let generics = world.rng.below(world.sheet.generics.len());
  let (asking, question) = flex_asked(&mut world, generics);
  call(world, asking, question, generics as u32)
}

/// A flex question in a world whose last traits are Fork and Drop, from generics of it.
fn flex_asked(world: &mut World<'_>, generics: usize) -> (Asking, Question) {
  let traits = world.sheet.traits.len() as u32;
  let mut asking =
    Asking { params: world.sheet.generics[generics].type_params, ..Asking::default() };
  let word = match world.rng.weighted(&[60, 40]) {
    0 => {
      let trait_ = traits - 1 - world.rng.below(2) as u32;
      let depth = world.rng.range(0, 3);
      let args = world.instance(&mut asking, trait_, depth);
      args.first().copied()
    }
    _ => None,
  };
  let word = word.unwrap_or_else(|| world.ty(&mut asking.table, asking.params, 2));
  if world.rng.chance(25) {
    world.disturb(&mut asking);
  }
  let word = word ^ u32::from(world.rng.chance(15));
  (asking, Question::Flex(word))
}

/// One impl and a question much like its signature: shared types, unknowns and inversions on both sides.
fn meetings(rng: &mut Rng) -> Call {
  let (mut world, fork, _) = flex_world(rng);
  world.sheet.closures = vec![3, 0];
  let trait_ = if world.rng.chance(30) {
    fork
  } else {
    let arity = world.rng.range(2, 4) as u32;
    world.add_trait(arity)
  };
  world.sheet.traits[trait_ as usize].inherent = 0;
  let type_params = world.rng.range(0, 4) as u32;
  world.sheet.generics.push(Generics { type_params, ..Generics::default() });
  let mut table = Table::default();
  let arity = world.sheet.traits[trait_ as usize].arity;
  let args = (0..arity).map(|_| world.ty(&mut table, type_params, 3)).collect();
  add_bound_impl(&mut world, 1, trait_, table, args);
  let mut asking = Asking::default();
  let args = world.instance(&mut asking, trait_, 1);
  let times = world.rng.range(0, 4);
  world.blur(&mut asking, times);
  if trait_ == fork {
    return call(world, asking, Question::Flex(args[0]), 0);
  }
  call(world, asking, Question::Impl(Query { trait_: trait_ + 1, args }), 0)
}

/// An impl for S of A that needs A, once or more, and one for Leaf: S round S round Leaf.
fn nested(rng: &mut Rng) -> Call {
  let mut world = World::bare(rng);
  let trait_ = world.add_trait(1);
  world.sheet.structs = vec![(0, 0), (0, u32::from(world.rng.chance(50)))];
  let times = world.rng.weighted(&[0, 80, 15, 5]);
  let mut generics = Generics { type_params: 1, ..Generics::default() };
  let param = generics.table.add(kind::PARAM, 0, &[]);
  generics.impl_params = vec![Query { trait_: trait_ + 1, args: vec![param] }; times];
  world.sheet.generics.push(generics);

  let mut table = Table::default();
  let param = table.add(kind::PARAM, 0, &[]);
  let round = table.add(kind::STRUCT, 1, &[param]);
  add_bound_impl(&mut world, 1, trait_, table, vec![round]);
  let mut table = Table::default();
  let leaf = table.add(kind::STRUCT, 0, &[]);
  add_bound_impl(&mut world, 0, trait_, table, vec![leaf]);

  let most = [17, 17, 5, 4][times];
  let levels = if times == 1 && world.rng.chance(40) {
    world.rng.range(13, most)
  } else {
    world.rng.range(0, most)
  };
  let mut asking = Asking::default();
  let mut word = asking.table.add(kind::STRUCT, 0, &[]);
  for _ in 0..levels {
    word = asking.table.add(kind::STRUCT, 1, &[word]);
  }
  if world.rng.chance(20) {
    world.disturb(&mut asking);
  }
  call(world, asking, Question::Impl(Query { trait_: trait_ + 1, args: vec![word] }), 0)
}

/// An impl bound publicly in definition 0, named in some cases.
fn add_bound_impl(world: &mut World<'_>, generics: u32, trait_: u32, table: Table, args: Vec<u32>) {
  let flags = if world.rng.chance(30) { flag::NAMED } else { 0 };
  let query = Query { trait_: trait_ + 1, args };
  world.sheet.impls.push(Impl { generics, flags, table, query });
  let impl_ = world.sheet.impls.len() as u32 - 1;
  world.sheet.definitions[0].bindings.push(Binding { vis: 0, impl_ });
}

/// Fork and Drop in a world of one definition, neither with inherent arguments in most cases.
fn flex_world<'a>(rng: &'a mut Rng) -> (World<'a>, u32, u32) {
  let mut world = World::bare(rng);
  let (fork, drop) = (world.add_trait(1), world.add_trait(1));
  (world.sheet.fork, world.sheet.drop) = (fork + 1, drop + 1);
  let mark = |rng: &mut Rng| u32::from(rng.chance(40));
  world.sheet.structs = vec![(0, mark(world.rng)), (0, mark(world.rng))];
  world.sheet.unions = vec![(0, mark(world.rng))];
  (world, fork, drop)
}

/// Impls of Fork or Drop for a type and for its inverse.
fn two_ways_flexible(rng: &mut Rng) -> Call {
  let (mut world, fork, drop) = flex_world(rng);
  let mut table = Table::default();
  let word = world.ty(&mut table, 0, 2);
  for inverted in [0, 1] {
    let trait_ = if world.rng.chance(50) { fork } else { drop };
    if world.rng.chance(85) {
      add_bound_impl(&mut world, 0, trait_, table.clone(), vec![word ^ inverted]);
    }
  }
  world.set_duplicate_and_erase();
  let mut asking = Asking { table, params: 0 };
  if world.rng.chance(15) {
    world.disturb(&mut asking);
  }
  let word = word ^ u32::from(world.rng.chance(30));
  call(world, asking, Question::Flex(word), 0)
}

/// Impls of Fork and Drop that find different types for an unknown.
fn fork_against_drop(rng: &mut Rng) -> Call {
  let (mut world, fork, drop) = flex_world(rng);
  let many = world.rng.range(1, 2);
  let inverted = u32::from(world.rng.chance(30));
  for trait_ in [fork, drop] {
    let mut table = Table::default();
    let children: Vec<u32> = (0..many).map(|_| world.ty(&mut table, 0, 1)).collect();
    let word = table.add(kind::STRUCT, 1, &children);
    add_bound_impl(&mut world, 0, trait_, table, vec![word ^ inverted]);
  }
  world.set_duplicate_and_erase();
  let mut asking = Asking::default();
  let unknown = asking.table.add(kind::UNKNOWN, 0, &[]);
  let children: Vec<u32> = (0..many)
    .map(|_| if world.rng.chance(70) { unknown } else { world.ty(&mut asking.table, 0, 1) })
    .collect();
  let word = asking.table.add(kind::STRUCT, 1, &children);
  let word = word ^ u32::from(world.rng.chance(20));
  call(world, asking, Question::Flex(word), 0)
}

/// Types over Default that meet as inverses of each other, and again at the end in another order.
fn against_its_inverse(rng: &mut Rng) -> Call {
  let (mut world, fork, _) = flex_world(rng);
  let trait_ = if world.rng.chance(50) { fork } else { world.add_trait(4) };
  let is_fork = trait_ == fork;

  let mut generics = Generics { type_params: 3, ..Generics::default() };
  if world.rng.chance(10) {
    generics.impl_params.push(Query { trait_: 0, args: Vec::new() });
  }
  world.sheet.generics.push(generics);
  let mut table = Table::default();
  let params: Vec<u32> = (0..3).map(|n| table.add(kind::PARAM, n, &[])).collect();
  let mut args = vec![params[0], params[1], params[2], params[1] ^ 1];
  if world.rng.chance(30) {
    let place = world.rng.below(4);
    args[place] ^= 1;
  }
  if is_fork {
    args = vec![table.add(kind::TUPLE, 0, &args)];
  }
  add_bound_impl(&mut world, 1, trait_, table, args);

  let mut asking = Asking::default();
  let leaf = if world.rng.chance(80) { kind::DEFAULT } else { kind::ERROR };
  let mut inner = asking.table.add(leaf, 0, &[]);
  if world.rng.chance(20) {
    inner = asking.table.add(kind::TUPLE, 0, &[inner]);
  }
  let (kind, id) =
    world.rng.pick(&[(kind::TUPLE, 0), (kind::TUPLE, 0), (kind::STRUCT, 0), (kind::UNION, 0)]);
  let [one, other] = [0, 1].map(|_| asking.table.add(kind, id, &[inner]));
  let mut args = vec![one, other, other, one];
  if world.rng.chance(20) {
    let place = world.rng.below(4);
    args[place] ^= 1;
  }
  if is_fork {
    let word = asking.table.add(kind::TUPLE, 0, &args);
    let word = word ^ u32::from(world.rng.chance(10));
    call(world, asking, Question::Flex(word), 0)
  } else {
    call(world, asking, Question::Impl(Query { trait_: trait_ + 1, args }), 0)
  }
}

/// Closures of each flex, Fn and Default, and Tuples of them where an impl for Tuples is there.
fn closures(rng: &mut Rng) -> Call {
  let (mut world, fork, drop) = flex_world(rng);
  world.sheet.closures = vec![0, 1, 2, 3];
  for trait_ in [fork, drop] {
    if world.rng.chance(60) {
      let mut generics = Generics { type_params: 2, ..Generics::default() };
      for n in 0..2 {
        let param = generics.table.add(kind::PARAM, n, &[]);
        generics.impl_params.push(Query { trait_: trait_ + 1, args: vec![param] });
      }
      world.sheet.generics.push(generics);
      let generics = world.sheet.generics.len() as u32 - 1;
      let mut table = Table::default();
      let params: Vec<u32> = (0..2).map(|n| table.add(kind::PARAM, n, &[])).collect();
      let pair = table.add(kind::TUPLE, 0, &params);
      add_bound_impl(&mut world, generics, trait_, table, vec![pair]);
    } else {
      add_bound_impl(&mut world, 0, trait_, Table::default(), Vec::new());
      let mut table = Table::default();
      let word = world.ty(&mut table, 0, 1);
      let last = world.sheet.impls.last_mut().unwrap();
      (last.table, last.query.args) = (table, vec![word]);
    }
  }
  world.set_duplicate_and_erase();
  let mut asking = Asking::default();
  let mut leaf = |world: &mut World<'_>| {
    let kind = world.rng.pick(&[kind::FN, kind::DEFAULT, kind::CLOSURE, kind::CLOSURE]);
    let child = world.ty(&mut asking.table, 0, 0);
    match kind {
      kind::CLOSURE => {
        let id = world.rng.below(4) as u32;
        asking.table.add(kind, id, &[child])
      }
      _ => asking.table.add(kind, 0, &[]),
    }
  };
  let (one, other) = (leaf(&mut world), leaf(&mut world));
  let word =
    if world.rng.chance(60) { asking.table.add(kind::TUPLE, 0, &[one, other]) } else { one };
  let word = word ^ u32::from(world.rng.chance(15));
  if world.rng.chance(70) {
    return call(world, asking, Question::Flex(word), 0);
  }
  let trait_ = if world.rng.chance(50) { fork } else { drop };
  call(world, asking, Question::Impl(Query { trait_: trait_ + 1, args: vec![word] }), 0)
}

/// Several results for a question, or for sub-questions together: ambiguous, or over 4.
fn many_results(rng: &mut Rng) -> Call {
  let mut world = World::bare(rng);
  let traits: Vec<u32> = (0..3).map(|_| world.add_trait(0)).collect();
  let mut generics = Generics::default();
  for &trait_ in &traits[1..] {
    for _ in 0..world.rng.range(0, 3) {
      add_bound_impl(&mut world, 0, trait_, Table::default(), Vec::new());
    }
    generics.impl_params.push(Query { trait_: trait_ + 1, args: Vec::new() });
  }
  world.sheet.generics.push(generics);
  for _ in 0..world.rng.weighted(&[0, 60, 10, 10, 10, 10]) {
    let generics = u32::from(world.rng.chance(70));
    add_bound_impl(&mut world, generics, traits[0], Table::default(), Vec::new());
  }
  let generics = u32::from(world.rng.chance(20));
  call(
    world,
    Asking::default(),
    Question::Impl(Query { trait_: traits[0] + 1, args: Vec::new() }),
    generics,
  )
}

/// Traits of no arguments, each impl asking for several of the next: trees of many nodes, or many fresh unknowns.
fn large_trees(rng: &mut Rng) -> Call {
  let mut world = World::bare(rng);
  let levels = world.rng.range(3, 5);
  let type_params = world.rng.pick(&[0, 0, 3, 8]);
  for level in 0..levels {
    let trait_ = world.add_trait(0);
    let mut generics = 0;
    if level + 1 < levels {
      let next = Query { trait_: trait_ + 2, args: Vec::new() };
      let impl_params = vec![next; world.rng.range(3, 4)];
      world.sheet.generics.push(Generics { type_params, impl_params, ..Generics::default() });
      generics = world.sheet.generics.len() as u32 - 1;
    }
    add_bound_impl(&mut world, generics, trait_, Table::default(), Vec::new());
  }
  call(world, Asking::default(), Question::Impl(Query { trait_: 1, args: Vec::new() }), 0)
}

/// As `nested`, with many type parameters and nodes at each level.
fn many_nodes(rng: &mut Rng) -> Call {
  let mut world = World::bare(rng);
  let trait_ = world.add_trait(1);
  world.sheet.traits[0].inherent = 0;
  world.sheet.structs = vec![(0, 0), (0, 0)];
  let many = world.rng.range(4, 8) as u32;
  let mut generics = Generics { type_params: many, ..Generics::default() };
  let params: Vec<u32> = (0..many).map(|n| generics.table.add(kind::PARAM, n, &[])).collect();
  generics.impl_params.push(Query { trait_: trait_ + 1, args: vec![params[0]] });
  world.sheet.generics.push(generics);
  let mut table = Table::default();
  let children: Vec<u32> = (0..many)
    .map(|n| {
      let param = table.add(kind::PARAM, n, &[]);
      let refs = if n > 0 { world.rng.weighted(&[20, 40, 40]) } else { 0 };
      (0..refs).fold(param, |word, _| table.add(kind::REF, 0, &[word]))
    })
    .collect();
  let round = table.add(kind::STRUCT, 1, &children);
  add_bound_impl(&mut world, 1, trait_, table, vec![round]);
  let mut table = Table::default();
  let leaf = table.add(kind::STRUCT, 0, &[]);
  add_bound_impl(&mut world, 0, trait_, table, vec![leaf]);

  let mut asking = Asking::default();
  let unknown = asking.table.add(kind::UNKNOWN, 0, &[]);
  let mut word = asking.table.add(kind::STRUCT, 0, &[]);
  for _ in 0..world.rng.range(8, 15) {
    let mut children = vec![word];
    children.extend((1..many).map(|_| {
      if world.rng.chance(70) { unknown } else { asking.table.add(kind::UNKNOWN, 0, &[]) }
    }));
    word = asking.table.add(kind::STRUCT, 1, &children);
  }
  call(world, asking, Question::Impl(Query { trait_: trait_ + 1, args: vec![word] }), 0)
}

/// An impl that asks for a larger type, or for the same again: the search has no end of its own.
fn without_end(rng: &mut Rng) -> Call {
  let mut world = World::bare(rng);
  let trait_ = world.add_trait(1);
  world.sheet.structs = vec![(0, 0)];
  let mut generics = Generics { type_params: 1, ..Generics::default() };
  let param = generics.table.add(kind::PARAM, 0, &[]);
  let larger = generics.table.add(kind::STRUCT, 0, &[param]);
  let asked = world.rng.pick(&[larger, param, param]);
  generics.impl_params =
    vec![Query { trait_: trait_ + 1, args: vec![asked] }; world.rng.range(1, 2)];
  world.sheet.generics.push(generics);
  let mut table = Table::default();
  let param = table.add(kind::PARAM, 0, &[]);
  let arg = if world.rng.chance(50) { param } else { table.add(kind::STRUCT, 0, &[param]) };
  add_bound_impl(&mut world, 1, trait_, table, vec![arg]);
  let mut asking = Asking::default();
  let inner = asking.table.add(world.rng.pick(&[kind::UNKNOWN, kind::NEVER]), 0, &[]);
  let word = asking.table.add(kind::STRUCT, 0, &[inner]);
  call(world, asking, Question::Impl(Query { trait_: trait_ + 1, args: vec![word] }), 0)
}

/// Definitions that reach each other by members and imports, in circles too; impls of traits without arguments.
fn members(rng: &mut Rng) -> Call {
  let (definitions, impls) = (rng.range(2, 7), rng.range(1, 3));
  chart_of(rng, definitions, impls)
}

/// As `members`, up to the limits of a sheet.
fn large_chart(rng: &mut Rng) -> Call {
  let most = if rng.chance(10) { 128 } else { 40 };
  let (definitions, impls) = (rng.range(10, most), rng.range(5, most));
  chart_of(rng, definitions, impls)
}

fn chart_of(rng: &mut Rng, many: usize, impls: usize) -> Call {
  let mut world = World::bare(rng);
  world.sheet.imports =
    (0..world.rng.range(0, 3)).map(|_| world.rng.range(0, many) as u32).collect();
  world.sheet.definitions = (0..many).map(|id| definition(&mut world, id, many)).collect();
  for _ in 0..world.rng.range(1, 2 + impls / 3) {
    let definition = world.rng.below(many) as u32;
    world.sheet.traits.push(Trait { definition, arity: 0, inherent: 0 });
  }
  let traits = world.sheet.traits.len();
  for _ in 0..impls {
    let trait_ = 1 + world.rng.below(traits) as u32;
    let flags = [0, flag::NAMED, flag::NAMED, flag::UNSAFE, flag::MANUAL]
      [world.rng.weighted(&[46, 25, 25, 2, 2])];
    world.sheet.impls.push(Impl {
      flags,
      query: Query { trait_, args: Vec::new() },
      ..Impl::default()
    });
    let impl_ = world.sheet.impls.len() as u32 - 1;
    let at = world.rng.below(many);
    let vis = vis(world.rng, many, 70);
    world.sheet.definitions[at].bindings.push(Binding { vis, impl_ });
  }
  for id in 0..many {
    if world.rng.chance(25) {
      world.sheet.definitions[id].trait_ = 1 + world.rng.below(traits) as u32;
      world.sheet.definitions[id].trait_vis = vis(world.rng, many, 60);
    }
  }
  if world.rng.chance(40) {
    world.sheet.prelude = 1 + world.rng.below(many) as u32;
  }
  world.source = world.rng.below(many) as u32;
  let trait_ = 1 + world.rng.below(traits) as u32;
  call(world, Asking::default(), Question::Impl(Query { trait_, args: Vec::new() }), 0)
}

/// A vis over so many definitions: public in so many percent.
fn vis(rng: &mut Rng, definitions: usize, public: usize) -> u32 {
  if rng.chance(public) { 0 } else { 1 + rng.below(definitions) as u32 }
}

/// A definition of so many, with members.
fn definition(world: &mut World<'_>, id: usize, many: usize) -> Definition {
  let parent = if id > 0 && world.rng.chance(60) { 1 + world.rng.below(id) as u32 } else { 0 };
  let members = |world: &mut World<'_>| -> Vec<Member> {
    (0..world.rng.weighted(&[45, 35, 20]))
      .map(|_| {
        let vis = vis(world.rng, many, 60);
        let imports = world.sheet.imports.len();
        let import = imports > 0 && world.rng.chance(30);
        let id = world.rng.below(if import { imports } else { many }) as u32;
        Member { vis, import: u32::from(import), id }
      })
      .collect()
  };
  let (named, implicit) = (members(world), members(world));
  Definition { parent, named, implicit, ..Definition::default() }
}

/// Impls in the module of an inherent argument, which may stand behind Refs.
fn behind_refs(rng: &mut Rng) -> Call {
  let mut world = World::bare(rng);
  world.sheet.definitions = vec![Definition::default(); 3];
  let arity = world.rng.range(1, 2) as u32;
  let inherent = world.rng.range(1, arity as usize) as u32;
  world.sheet.traits.push(Trait { definition: 1, arity, inherent });
  world.sheet.opaques = vec![2];
  world.sheet.structs = vec![(2, 1), (1, 0)];
  world.sheet.enums = vec![2];
  world.sheet.unions = vec![(2, 1)];
  world.sheet.closures = vec![3];
  world.sheet.generics.push(Generics { type_params: arity, ..Generics::default() });
  for _ in 0..world.rng.range(1, 2) {
    let mut table = Table::default();
    let args = (0..arity).map(|n| {
      let param = table.add(kind::PARAM, n, &[]);
      if world.rng.chance(30) { table.add(kind::REF, 0, &[param]) } else { param }
    });
    let query = Query { trait_: 1, args: args.collect() };
    let flags = if world.rng.chance(40) { flag::NAMED } else { 0 };
    world.sheet.impls.push(Impl { generics: 1, flags, table, query });
    let impl_ = world.sheet.impls.len() as u32 - 1;
    let at = world.rng.weighted(&[10, 20, 70]);
    let vis = vis(world.rng, 3, 85);
    world.sheet.definitions[at].bindings.push(Binding { vis, impl_ });
  }
  let mut asking = Asking::default();
  let args = (0..arity)
    .map(|_| {
      let leaves = [
        kind::OPAQUE,
        kind::STRUCT,
        kind::ENUM,
        kind::UNION,
        kind::UNKNOWN,
        kind::ERROR,
        kind::TUPLE,
        kind::FN,
      ];
      let leaf = leaves[world.rng.weighted(&[15, 25, 10, 10, 8, 8, 6, 4])];
      let mut word = asking.table.add(leaf, 0, &[]);
      for _ in 0..world.rng.weighted(&[35, 35, 20, 10]) {
        word = asking.table.add(kind::REF, 0, &[word ^ u32::from(world.rng.chance(10))]);
      }
      word ^ u32::from(world.rng.chance(10))
    })
    .collect();
  call(world, asking, Question::Impl(Query { trait_: 1, args }), 0)
}

/// A question of so many nodes that the last import may pass the limit.
fn large_question(rng: &mut Rng) -> Call {
  let mut world = World::bare(rng);
  let trait_ = world.add_trait(1);
  world.sheet.traits[0].inherent = 0;
  world.sheet.generics.push(Generics { type_params: 1, ..Generics::default() });
  let mut table = Table::default();
  let param = table.add(kind::PARAM, 0, &[]);
  add_bound_impl(&mut world, 1, trait_, table, vec![param]);
  let mut asking = Asking::default();
  let mut word = asking.table.add(kind::UNKNOWN, 0, &[]);
  for _ in 0..world.rng.range(80, 143) {
    word = asking.table.add(kind::REF, 0, &[word]);
  }
  call(world, asking, Question::Impl(Query { trait_: trait_ + 1, args: vec![word] }), 0)
}
