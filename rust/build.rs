//! Links the proved static library libfogsignaller.a.
//!
//! Its folder is FOGSIGNALLER_LIB, or the repository's target where that is not set.

use std::env;
use std::path::PathBuf;

const LIBRARY: &str = "libfogsignaller.a";

fn main() {
    println!("cargo:rerun-if-env-changed=FOGSIGNALLER_LIB");
    if env::var("CARGO_CFG_TARGET_ARCH").as_deref() != Ok("x86_64") {
        eprintln!("{LIBRARY} is for x86-64: build with --target x86_64-unknown-linux-gnu.");
        std::process::exit(1);
    }
    let folder = match env::var_os("FOGSIGNALLER_LIB") {
        Some(folder) => PathBuf::from(folder),
        None => PathBuf::from(env!("CARGO_MANIFEST_DIR")).join("../target"),
    };
    let library = folder.join(LIBRARY);
    println!("cargo:rerun-if-changed={}", library.display());
    if !library.is_file() {
        eprintln!(
            "{} is not there. Build it with `make library` in the repository, \
             or set FOGSIGNALLER_LIB to the whole path of the folder that holds {LIBRARY}.",
            library.display()
        );
        std::process::exit(1);
    }
    println!("cargo:rustc-link-search=native={}", folder.display());
    println!("cargo:rustc-link-lib=static=fogsignaller");
}
