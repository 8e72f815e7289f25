// Copies the six Rust files of docs/src, byte for byte, to where src/lib.rs includes them.
// They lie flat in OUT_DIR: an included finder.rs looks for candidates.rs beside itself.

use std::{env, fs, path::Path};

const FILES: [&str; 6] = [
  "components/finder.rs",
  "components/finder/candidates.rs",
  "features/flex.rs",
  "structures/types.rs",
  "structures/chart.rs",
  "structures/signatures.rs",
];

fn main() {
  let root = Path::new(&env::var("CARGO_MANIFEST_DIR").unwrap()).join("../docs/src/vine/src");
  let out = env::var("OUT_DIR").unwrap();
  for file in FILES {
    let from = root.join(file);
    println!("cargo::rerun-if-changed={}", from.display());
    let bytes = fs::read(&from).unwrap_or_else(|e| panic!("{}: {e}", from.display()));
    fs::write(Path::new(&out).join(from.file_name().unwrap()), bytes).unwrap();
  }
  println!("cargo::rerun-if-changed=build.rs");
}
