//! Finds the crate's files, in the folder `src` of the one that CRATE_SOURCE names, and makes modules of them.
use std::path::{Path, PathBuf};
use std::{env, fs};

/// The modules that stand as they are. The other two, `expull` and `shared_arena_hashmap`, are taken in by `lib.rs`.
const PLAIN: [&str; 4] = ["arena_hashmap", "fastcmp", "fastcpy", "memory_arena"];
const SEEN: [&str; 2] = ["expull", "shared_arena_hashmap"];

/// The modules that the crate's own `lib.rs` declares must be those that we take, or something would be left out.
fn same_modules(src: &Path) {
    let text = fs::read_to_string(src.join("lib.rs")).expect("the crate's lib.rs");
    let mut declared: Vec<&str> = text.lines().filter_map(|l| l.strip_prefix("mod ")?.strip_suffix(';')).collect();
    let mut taken: Vec<&str> = PLAIN.iter().chain(&SEEN).copied().collect();
    declared.sort();
    taken.sort();
    assert_eq!(declared, taken, "the crate's modules aren't those of 0.27.0");
}

fn main() {
    println!("cargo::rerun-if-env-changed=CRATE_SOURCE");
    let folder = env::var("CRATE_SOURCE").expect("CRATE_SOURCE names the folder with the crate's source");
    let src: PathBuf = fs::canonicalize(Path::new(&folder).join("src")).expect("the folder src in CRATE_SOURCE");
    println!("cargo::rerun-if-changed={}", src.display());
    same_modules(&src);
    println!("cargo::rustc-env=CRATE_SRC={}", src.display());
    let modules: String = PLAIN.iter().map(|m| format!("#[path = {:?}]\npub mod {m};\n", src.join(m).with_extension("rs"))).collect();
    fs::write(Path::new(&env::var("OUT_DIR").unwrap()).join("modules.rs"), modules).unwrap();
}
