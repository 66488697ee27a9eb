// Links the archive that `tools/archive` makes. TAGRUMZIL_LIB names its folder; without it the crate's own folder lib/ is taken, where the archive was put there, or
// else the repository's target/staticlib.
use std::{env, path::Path};

fn main() {
    let here = env::var("CARGO_MANIFEST_DIR").unwrap();
    let own = Path::new(&here).join("lib");
    let own = if own.join("libtagrumzil.a").exists() { own } else { Path::new(&here).join("../../target/staticlib") };
    let folder = env::var("TAGRUMZIL_LIB").unwrap_or_else(|_| own.display().to_string());
    if !Path::new(&folder).join("libtagrumzil.a").exists() {
        panic!("no libtagrumzil.a in {folder}: run `tools/archive` in the repository first, or name its folder in TAGRUMZIL_LIB");
    }
    println!("cargo:rustc-link-search=native={folder}");
    println!("cargo:rustc-link-lib=static=tagrumzil");
    println!("cargo:rerun-if-env-changed=TAGRUMZIL_LIB");
    println!("cargo:rerun-if-changed={folder}/libtagrumzil.a");
}
