//! For build scripts, also of the crates beside this one: links archives that `rust/run archives` writes.

use std::env;
use std::path::Path;

const FOLDER: &str = "CABLESALAK_ARCHIVE_FOLDER";

pub fn archives(names: &[&str]) {
    // The repository's, or where `bin/install` puts it beside this crate.
    let own = env::var("CARGO_MANIFEST_DIR").unwrap();
    let in_repository = Path::new(&own).join("../../crates.txt").exists();
    let beside =
        || format!("{own}/{}", if in_repository { "../../target/staticlib" } else { "../../../../lib/cablesalak" });
    let folder = env::var(FOLDER).unwrap_or_else(|_| beside());
    println!("cargo:rerun-if-env-changed={FOLDER}");
    println!("cargo:rustc-link-search=native={folder}");
    for name in names {
        println!("cargo:rerun-if-changed={folder}/lib{name}.a");
        println!("cargo:rustc-link-lib=static={name}");
        assert!(
            Path::new(&folder).join(format!("lib{name}.a")).exists(),
            "no lib{name}.a in {folder}: write it with `rust/run archives {name}`, or name its folder in {FOLDER}"
        );
    }
    // For the tests, which link C programs too.
    println!("cargo:rustc-env=CABLESALAK_FOLDER={folder}");
}
