//! Looks for the original's sources below RL_LANG_SRC, or below the default
//! folder, both seen from the repository's top. Where they are, the cfg
//! `original` is set and a file says where its three modules are.

use std::path::{Path, PathBuf};
use std::{env, fs};

/// The files that are compiled as they are.
const FILES: [&str; 6] = [
    "rl-ast/src/lib.rs",
    "rl-ast/src/arena.rs",
    "rl-ast/src/nodes.rs",
    "rl-ast/src/statements.rs",
    "rl-checker/src/contracts.rs",
    "rl-resolver/src/contracts.rs",
];
/// Ours, in the module of the checker's contracts.
const INSIDE: &str = "src/const_eval.rs";

fn main() {
    let package = PathBuf::from(env::var_os("CARGO_MANIFEST_DIR").expect("set by cargo"));
    let source = env::var_os("RL_LANG_SRC").unwrap_or("../shared/docs/src".into());
    let crates = package.join("../..").join(source).join("crates");
    println!("cargo:rerun-if-env-changed=RL_LANG_SRC");
    println!("cargo:rustc-check-cfg=cfg(original)");
    let files = FILES.map(|file| crates.join(file));
    for file in &files {
        println!("cargo:rerun-if-changed={}", file.display());
    }
    if files.iter().all(|file| file.exists()) {
        println!("cargo:rustc-cfg=original");
        let out = PathBuf::from(env::var_os("OUT_DIR").expect("set by cargo"));
        let contracts = out.join("contracts.rs");
        let text = with_inside(&files[4], &package.join(INSIDE));
        fs::write(&contracts, text).expect("OUT_DIR can be written");
        let modules = [("ast", &files[0]), ("contracts", &contracts), ("resolver", &files[5])];
        let modules = modules.map(|(name, file)| module(name, file)).concat();
        fs::write(out.join("original.rs"), modules).expect("OUT_DIR can be written");
    }
}

/// A module whose file is there; `ast` finds its own modules beside it.
fn module(name: &str, file: &Path) -> String {
    let file = file.canonicalize().expect("a file that exists");
    format!("#[allow(warnings, clippy::all)]\n#[path = {file:?}]\nmod {name};\n")
}

/// The text of a file as it is, and a module of ours behind it: from inside,
/// what is private there can be called.
fn with_inside(file: &Path, ours: &Path) -> String {
    let text = fs::read_to_string(file).expect("a file that can be read");
    format!("{text}\n#[path = {ours:?}]\npub mod inside;\n")
}
