//! Document 01's sheet and question, made into the Chart, Signatures and Types that the Rust reads.

use std::collections::HashMap;

use crate::{
  features::builtin::Builtins,
  structures::{
    ast::{Block, Flex, Ident, Span, Trait},
    chart::{
      Binding, Chart, ConcreteFnDef, ConcreteFnId, Def, DefId, DefImplKind, DefTraitKind, EnumDef,
      EnumId, FnId, GenericsId, ImplDef, ImplDefKind, ImplId, ImportId, MemberKind, OpaqueTypeDef,
      OpaqueTypeId, StructDef, StructId, TraitDef, TraitId, UnionDef, UnionId, VisId,
    },
    diag::ErrorGuaranteed,
    signatures::{FnSig, ImplParams, ImplSig, ImportState, Signatures, TypeParams},
    tir::ClosureId,
    types::{ImplType, NodeState, Type, TypeCtx, TypeKind, Types},
  },
};

/// The header's words.
pub mod header {
  pub const EDITION: usize = 0;
  pub const DEFINITIONS: usize = 1;
  pub const GENERICS: usize = 2;
  pub const TRAITS: usize = 3;
  pub const IMPLS: usize = 4;
  pub const OPAQUES: usize = 5;
  pub const STRUCTS: usize = 6;
  pub const ENUMS: usize = 7;
  pub const UNIONS: usize = 8;
  pub const CLOSURES: usize = 9;
  pub const IMPORTS: usize = 10;
  pub const PRELUDE: usize = 11;
  pub const FORK: usize = 12;
  pub const DROP: usize = 13;
  pub const DUPLICATE: usize = 14;
  pub const ERASE: usize = 15;
  pub const WORDS: usize = 16;
}

/// The kinds of type nodes.
pub mod kind {
  pub const UNKNOWN: u32 = 0;
  pub const PARAM: u32 = 1;
  pub const TUPLE: u32 = 2;
  pub const OPAQUE: u32 = 3;
  pub const STRUCT: u32 = 4;
  pub const ENUM: u32 = 5;
  pub const UNION: u32 = 6;
  pub const FN: u32 = 7;
  pub const CLOSURE: u32 = 8;
  pub const REF: u32 = 9;
  pub const KEY: u32 = 10;
  pub const NEVER: u32 = 11;
  pub const DEFAULT: u32 = 12;
  pub const ERROR: u32 = 13;
}

/// The flags of an impl.
pub mod flag {
  pub const MANUAL: u32 = 1;
  pub const BASIC: u32 = 2;
  pub const UNSAFE: u32 = 4;
  pub const NAMED: u32 = 8;
}

/// The places of the records on a chain that keeps the chain rule.
pub fn chain(words: &[u32], head: u32) -> Vec<usize> {
  let mut places = Vec::new();
  let mut place = head as usize;
  while place != 0 {
    places.push(place);
    place = words[place] as usize;
  }
  places
}

/// The records of N words on a chain that keeps the chain rule.
pub fn records<const N: usize>(words: &[u32], head: u32) -> Vec<[u32; N]> {
  chain(words, head).into_iter().map(|place| words[place..place + N].try_into().unwrap()).collect()
}

/// An optional id: 0 for none, id plus 1 otherwise.
pub fn optional(word: u32) -> Option<usize> {
  (word as usize).checked_sub(1)
}

/// What a sheet holds, and the Fn ids met so far: they are free, and the Rust wants places in a vector.
pub struct Setting {
  pub chart: Chart,
  pub sigs: Signatures,
  pub fns: Vec<u32>,
  closures: Vec<Flex>,
}

impl Setting {
  /// Reads a sheet that passes checks 6 to 9.
  pub fn new(sheet: &[u32]) -> Setting {
    let mut setting = Setting {
      chart: Chart::default(),
      sigs: Signatures::default(),
      fns: Vec::new(),
      closures: Vec::new(),
    };
    setting.read_definitions(sheet);
    setting.read_traits(sheet);
    setting.read_named_types(sheet);
    setting.read_generics(sheet);
    setting.read_impls(sheet);
    setting.read_builtins(sheet);
    setting
  }

  fn read_definitions(&mut self, sheet: &[u32]) {
    for record in records::<7>(sheet, sheet[header::DEFINITIONS]) {
      let [_, parent, trait_vis, trait_, impls, named, implicit] = record;
      let parent = optional(parent).map(DefId);
      let mut ancestors =
        parent.map_or(Vec::new(), |parent| self.chart.defs[parent].ancestors.clone());
      ancestors.push(self.chart.defs.next_index());
      self.chart.defs.push(Def {
        name: Ident::default(),
        path: String::new(),
        file: None,
        spans: Vec::new(),
        members_lookup: HashMap::new(),
        named_members: read_members(sheet, named),
        implicit_members: read_members(sheet, implicit),
        parent,
        ancestors,
        value_kind: None,
        type_kind: None,
        pattern_kind: None,
        trait_kind: optional(trait_).map(|id| bind(trait_vis, DefTraitKind::Trait(TraitId(id)))),
        impl_kinds: records::<3>(sheet, impls)
          .into_iter()
          .map(|[_, vis, id]| bind(vis, DefImplKind::Impl(ImplId(id as usize))))
          .collect(),
      });
    }
    for [_, definition] in records::<2>(sheet, sheet[header::IMPORTS]) {
      self.sigs.imports.push(match optional(definition) {
        Some(id) => ImportState::Resolved(Ok(DefId(id))),
        None => ImportState::Unresolved,
      });
    }
  }

  fn read_traits(&mut self, sheet: &[u32]) {
    for [_, definition, _, inherent] in records::<4>(sheet, sheet[header::TRAITS]) {
      self.chart.traits.push(TraitDef {
        span: Span::NONE,
        def: DefId(definition as usize),
        name: Ident::default(),
        generics: GenericsId::NONE,
        inherent_params: inherent as usize,
        consts: Default::default(),
        fns: Default::default(),
        unsafe_: false,
      });
    }
  }

  fn read_named_types(&mut self, sheet: &[u32]) {
    let (span, generics) = (Span::NONE, GenericsId::NONE);
    for [_, definition] in records::<2>(sheet, sheet[header::OPAQUES]) {
      let def = DefId(definition as usize);
      self.chart.opaque_types.push(OpaqueTypeDef { span, def, name: Ident::default(), generics });
    }
    for [_, definition, self_dual] in records::<3>(sheet, sheet[header::STRUCTS]) {
      self.chart.structs.push(StructDef {
        span,
        def: DefId(definition as usize),
        generics,
        name: Ident::default(),
        data_vis: VisId::Pub,
        data: Vec::new(),
        self_dual: self_dual == 1,
      });
    }
    for [_, definition] in records::<2>(sheet, sheet[header::ENUMS]) {
      let def = DefId(definition as usize);
      let (name, variants) = (Ident::default(), Default::default());
      self.chart.enums.push(EnumDef { span, def, generics, name, variants });
    }
    for [_, definition, self_dual] in records::<3>(sheet, sheet[header::UNIONS]) {
      self.chart.unions.push(UnionDef {
        span,
        def: DefId(definition as usize),
        generics,
        name: Ident::default(),
        variants: Default::default(),
        self_dual: self_dual == 1,
      });
    }
    for [_, flex] in records::<2>(sheet, sheet[header::CLOSURES]) {
      self.closures.push([Flex::None, Flex::Fork, Flex::Drop, Flex::Full][flex as usize]);
    }
  }

  fn read_generics(&mut self, sheet: &[u32]) {
    for [_, type_params, table, impl_params] in records::<4>(sheet, sheet[header::GENERICS]) {
      self.sigs.type_params.push(TypeParams {
        params: vec![Ident::default(); type_params as usize],
        lookup: HashMap::new(),
      });
      let types = self.read_table(sheet, table);
      let inner = records::<3>(sheet, impl_params)
        .into_iter()
        .map(|[_, trait_, args]| read_impl_type(sheet, trait_, args))
        .collect();
      self
        .sigs
        .impl_params
        .push(ImplParams { types: TypeCtx { types, inner }, lookup: HashMap::new() });
    }
  }

  fn read_impls(&mut self, sheet: &[u32]) {
    for [_, generics, flags, trait_, table, args] in records::<6>(sheet, sheet[header::IMPLS]) {
      self.chart.impls.push(ImplDef {
        span: Span::NONE,
        name: (flags & flag::NAMED != 0).then(Ident::default),
        def: DefId(0),
        generics: GenericsId(generics as usize),
        kind: ImplDefKind::Indirect(Trait, None),
        manual: flags & flag::MANUAL != 0,
        basic: flags & flag::BASIC != 0,
        become_: None,
        vis: VisId::Pub,
        unsafe_: flags & flag::UNSAFE != 0,
      });
      let types = self.read_table(sheet, table);
      let inner = ImplSig { ty: read_impl_type(sheet, trait_, args) };
      self.sigs.impls.push(TypeCtx { types, inner });
    }
  }

  fn read_builtins(&mut self, sheet: &[u32]) {
    let id = |word: usize| optional(sheet[word]);
    self.chart.builtins = Builtins {
      prelude: id(header::PRELUDE).map(DefId),
      fork: id(header::FORK).map(TraitId),
      drop: id(header::DROP).map(TraitId),
      duplicate: id(header::DUPLICATE).map(ImplId),
      erase: id(header::ERASE).map(ImplId),
      ..Builtins::default()
    };
  }

  /// The table of types that a head of the sheet or the question heads.
  pub fn read_table(&mut self, words: &[u32], head: u32) -> Types {
    let nodes: Vec<_> =
      records::<5>(words, head).into_iter().map(|record| self.read_node(words, record)).collect();
    Types::of_nodes(nodes)
  }

  fn read_node(&mut self, words: &[u32], record: [u32; 5]) -> NodeState {
    let [_, kind, inverted, id, children] = record;
    self.node_state(kind, inverted, id, read_types(words, children))
  }

  /// A node of a kind that check 8 or 12 lets pass.
  pub fn node_state(
    &mut self,
    kind: u32,
    inverted: u32,
    word: u32,
    mut types: Vec<Type>,
  ) -> NodeState {
    let id = word as usize;
    let kind = match kind {
      kind::UNKNOWN => return None,
      kind::PARAM => TypeKind::Param(id, Ident::default()),
      kind::TUPLE => TypeKind::Tuple(types),
      kind::OPAQUE => TypeKind::Opaque(OpaqueTypeId(id), types),
      kind::STRUCT => {
        TypeKind::Struct(StructId(id), self.chart.structs[StructId(id)].self_dual, types)
      }
      kind::ENUM => TypeKind::Enum(EnumId(id), types),
      kind::UNION => TypeKind::Union(UnionId(id), self.chart.unions[UnionId(id)].self_dual, types),
      kind::FN => TypeKind::Fn(FnId::Concrete(self.fn_id(word))),
      kind::CLOSURE => {
        let ret_ty = types.pop().unwrap();
        let sig = FnSig { names: vec![None; types.len()], param_tys: types, ret_ty };
        TypeKind::Closure(ClosureId(id), self.closures[id], sig)
      }
      kind::REF => TypeKind::Ref(types[0]),
      kind::KEY => TypeKind::Key(Ident(word.to_string())),
      kind::NEVER => TypeKind::Never,
      kind::DEFAULT => TypeKind::Default,
      kind::ERROR => TypeKind::Error(ErrorGuaranteed::new_unchecked()),
      _ => unreachable!("a kind that check 8 or 12 refuses"),
    };
    Some((inverted == 1, kind))
  }

  /// The place that stands for a free Fn id; a function record stands there, for messages.
  fn fn_id(&mut self, word: u32) -> ConcreteFnId {
    if let Some(place) = self.fns.iter().position(|&id| id == word) {
      return ConcreteFnId(place);
    }
    self.fns.push(word);
    self.chart.concrete_fns.push(ConcreteFnDef {
      span: Span::NONE,
      def: DefId(0),
      name: Ident::default(),
      generics: GenericsId::NONE,
      method: false,
      params: Vec::new(),
      ret_ty: None,
      body: Block,
      frameless: false,
      unsafe_: false,
    })
  }

  /// The kind and id of a node, as the answer's words have them.
  pub fn kind_and_id(&self, kind: &TypeKind) -> (u32, u32) {
    let (kind, id) = match kind {
      TypeKind::Param(id, _) => (kind::PARAM, *id),
      TypeKind::Tuple(_) => (kind::TUPLE, 0),
      TypeKind::Opaque(id, _) => (kind::OPAQUE, id.0),
      TypeKind::Struct(id, ..) => (kind::STRUCT, id.0),
      TypeKind::Enum(id, _) => (kind::ENUM, id.0),
      TypeKind::Union(id, ..) => (kind::UNION, id.0),
      TypeKind::Fn(FnId::Concrete(id)) => (kind::FN, self.fns[id.0] as usize),
      TypeKind::Closure(id, ..) => (kind::CLOSURE, id.0),
      TypeKind::Ref(_) => (kind::REF, 0),
      TypeKind::Key(name) => (kind::KEY, name.0.parse().unwrap()),
      TypeKind::Never => (kind::NEVER, 0),
      TypeKind::Default => (kind::DEFAULT, 0),
      TypeKind::Error(_) => (kind::ERROR, 0),
      TypeKind::Object(_) | TypeKind::IfConst(..) | TypeKind::Fn(FnId::Abstract(..)) => {
        unreachable!("a kind that no sheet holds")
      }
    };
    (kind, id as u32)
  }
}

fn bind<T>(vis: u32, kind: T) -> Binding<T> {
  let vis = optional(vis).map_or(VisId::Pub, |id| VisId::Def(DefId(id)));
  Binding { span: Span::NONE, vis, kind }
}

fn read_members(sheet: &[u32], head: u32) -> Vec<Binding<MemberKind>> {
  let member = |[_, vis, import, id]: [u32; 4]| {
    let id = id as usize;
    bind(
      vis,
      if import == 1 { MemberKind::Import(ImportId(id)) } else { MemberKind::Child(DefId(id)) },
    )
  };
  records::<4>(sheet, head).into_iter().map(member).collect()
}

/// The types that a chain of cells names.
pub fn read_types(words: &[u32], head: u32) -> Vec<Type> {
  records::<2>(words, head).into_iter().map(|[_, word]| Type::from_word(word)).collect()
}

/// A trait? and its arguments.
pub fn read_impl_type(words: &[u32], trait_: u32, args: u32) -> ImplType {
  match optional(trait_) {
    Some(id) => ImplType::Trait(TraitId(id), read_types(words, args)),
    None => ImplType::Error(ErrorGuaranteed::new_unchecked()),
  }
}
