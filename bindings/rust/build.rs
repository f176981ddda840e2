//! Links the archive that `tools/c_library` makes. Its folder is told by `PANGUHERO_LIB`; else it is where that command puts it.
use std::{env, path::PathBuf};

fn main() {
    let built = PathBuf::from(env!("CARGO_MANIFEST_DIR")).join("../../crates/panguhero_c/out/c/lib");
    let folder = env::var_os("PANGUHERO_LIB").map_or(built, PathBuf::from);
    println!("cargo:rerun-if-env-changed=PANGUHERO_LIB");
    println!("cargo:rerun-if-changed={}", folder.join("libpanguhero_c.a").display());
    println!("cargo:rustc-link-search=native={}", folder.display());
    println!("cargo:rustc-link-lib=static=panguhero_c");
}
