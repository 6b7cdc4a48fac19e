//! Links `librl_abi.a` and `libbench_texts.a` from RL_STATICLIB_DIR, or from
//! the default folder.

use std::env;
use std::path::{Path, PathBuf};

fn main() {
    let package = PathBuf::from(env::var_os("CARGO_MANIFEST_DIR").expect("set by cargo"));
    let folder = env::var_os("RL_STATICLIB_DIR").unwrap_or("../../target/staticlib".into());
    let folder = package.join(folder);
    println!("cargo:rerun-if-env-changed=RL_STATICLIB_DIR");
    link(&folder, "rl_abi", "only the stored cases can be made");
    link(&folder, "bench_texts", "bench_texts and compare_words cannot be made");
}

/// Links an archive of the folder, or says what follows where it is missing.
fn link(folder: &Path, name: &str, without: &str) {
    let archive = folder.join(format!("lib{name}.a"));
    println!("cargo:rerun-if-changed={}", archive.display());
    if archive.exists() {
        println!("cargo:rustc-link-search=native={}", folder.display());
        println!("cargo:rustc-link-lib=static={name}");
    } else {
        println!("cargo:warning={} is missing: {without}", archive.display());
    }
}
