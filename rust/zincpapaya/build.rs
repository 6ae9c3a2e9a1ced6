//! Links the archives that `tools/build` writes: `libzincpapaya.a`, with the calls that test the
//! memory first, and `libowned.a`, with those of a memory that `Heaps` owns.

use std::{
    env,
    path::{Path, PathBuf},
    process,
};

fn main() {
    println!("cargo:rerun-if-changed=build.rs");
    println!("cargo:rerun-if-env-changed=ZINCPAPAYA_LIB");
    let folder = folder();
    println!("cargo:rustc-link-search=native={}", folder.display());
    let missing: Vec<_> = archives().iter().filter(|name| !linked(&folder, name)).collect();
    if !missing.is_empty() {
        missing.into_iter().for_each(|name| explain(&folder, name));
        process::exit(1);
    }
}

/// With the feature `tested` no call of `libowned.a` is left.
fn archives() -> &'static [&'static str] {
    match env::var_os("CARGO_FEATURE_TESTED") {
        Some(_) => &["zincpapaya"],
        None => &["zincpapaya", "owned"],
    }
}

/// The folder that `ZINCPAPAYA_LIB` names, or else the repository's `target/staticlib`.
fn folder() -> PathBuf {
    match env::var_os("ZINCPAPAYA_LIB") {
        Some(folder) if !folder.is_empty() => PathBuf::from(folder),
        _ => {
            let manifest = env::var_os("CARGO_MANIFEST_DIR").expect("cargo sets it");
            Path::new(&manifest).join("../../target/staticlib")
        }
    }
}

/// Links an archive; tells whether it is there.
fn linked(folder: &Path, name: &str) -> bool {
    let archive = folder.join(format!("lib{name}.a"));
    println!("cargo:rerun-if-changed={}", archive.display());
    println!("cargo:rustc-link-lib=static={name}");
    archive.is_file()
}

fn explain(folder: &Path, name: &str) {
    let archive = format!("lib{name}.a");
    eprintln!("zincpapaya: there is no {}", folder.join(&archive).display());
    eprintln!("zincpapaya: run `tools/build {name}` first, in the repository's own folder,");
    eprintln!("zincpapaya: or let ZINCPAPAYA_LIB name the folder that has {archive}");
}
