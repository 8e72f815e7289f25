// Finds the archives that `bash .ci/build` writes, libcalls.a and libsitting.a in
// target/staticlib of this repository, or in the directory that VINE_FINDER_LIB names.

use std::{env, path::PathBuf};

fn main() {
  let root = PathBuf::from(env::var("CARGO_MANIFEST_DIR").unwrap());
  let directory = match env::var("VINE_FINDER_LIB") {
    Ok(named) => PathBuf::from(named),
    Err(_) => root.join("../target/staticlib"),
  };
  println!("cargo::rerun-if-env-changed=VINE_FINDER_LIB");
  println!("cargo::rustc-link-search=native={}", directory.display());
  for name in ["calls", "sitting"] {
    let archive = directory.join(format!("lib{name}.a"));
    println!("cargo::rerun-if-changed={}", archive.display());
    if !archive.exists() {
      let archive = archive.display();
      panic!("{archive} is not there: run `bash .ci/build` in the repository first");
    }
    println!("cargo::rustc-link-lib=static={name}");
  }
}
