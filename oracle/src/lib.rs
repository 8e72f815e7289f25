//! The oracle: Vine's impl finder, the Rust of docs/src unchanged, run on the sheets and questions of document 01.
//!
//! `components`, `features` and `structures` hold the six files of docs/src, included byte for byte, and shims for what
//! those files name. Everything else is ours.

// The Rust names vine_util's index vectors and macros; here they are this crate's own.
extern crate self as vine_util;

#[path = "shim/idx.rs"]
pub mod idx;

/// The six files as they are compiled here.
pub const SOURCES: [(&str, &str); 6] = [
  ("components/finder.rs", include_str!(concat!(env!("OUT_DIR"), "/finder.rs"))),
  ("components/finder/candidates.rs", include_str!(concat!(env!("OUT_DIR"), "/candidates.rs"))),
  ("features/flex.rs", include_str!(concat!(env!("OUT_DIR"), "/flex.rs"))),
  ("structures/types.rs", include_str!(concat!(env!("OUT_DIR"), "/types.rs"))),
  ("structures/chart.rs", include_str!(concat!(env!("OUT_DIR"), "/chart.rs"))),
  ("structures/signatures.rs", include_str!(concat!(env!("OUT_DIR"), "/signatures.rs"))),
];

pub mod answer;
pub mod answers;
pub mod case;
pub mod checks;
pub mod damage;
pub mod draft;
pub mod edges;
pub mod generate;
pub mod layout;
pub mod model;
pub mod model_candidates;
pub mod model_types;
pub mod rng;
pub mod rust;
pub mod samples;
pub mod sheet;
pub mod sitting_generate;
pub mod sitting_stored;
pub mod sittings;
pub mod stored;
pub mod tally;
pub mod type_cases;
pub mod type_generate;
pub mod type_run;
pub mod worker;
pub mod world;

#[allow(dead_code)]
pub mod components {
  pub mod finder {
    include!(concat!(env!("OUT_DIR"), "/finder.rs"));
    include!("access/finder.rs");
  }
  pub mod loader {
    include!("shim/loader.rs");
  }
  pub mod synthesizer {
    include!("shim/synthesizer.rs");
  }
}

#[allow(dead_code)]
pub mod features {
  pub mod flex {
    include!(concat!(env!("OUT_DIR"), "/flex.rs"));
  }
  pub mod builtin {
    include!("shim/builtin.rs");
  }
}

#[allow(dead_code)]
pub mod structures {
  pub mod chart {
    include!(concat!(env!("OUT_DIR"), "/chart.rs"));
  }
  pub mod signatures {
    include!(concat!(env!("OUT_DIR"), "/signatures.rs"));
  }
  pub mod types {
    include!(concat!(env!("OUT_DIR"), "/types.rs"));
    include!("access/types.rs");
  }
  pub mod ast {
    include!("shim/ast.rs");
  }
  pub mod diag {
    include!("shim/diag.rs");
  }
  pub mod tir {
    include!("shim/tir.rs");
  }
}
