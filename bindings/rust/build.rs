//! Links libpanel_c.a from the folder that PANEL_LIB names, or else from the repository's target/staticlib.
use std::env;
use std::path::{Path, PathBuf};
use std::process::exit;

const LIBRARY: &str = "libpanel_c.a";

/// A folder that is not given from the root on is looked for from this package on.
fn folder() -> PathBuf {
    let given = env::var_os("PANEL_LIB").unwrap_or("../../target/staticlib".into());
    Path::new(env!("CARGO_MANIFEST_DIR")).join(given)
}

fn main() {
    let folder = folder();
    let library = folder.join(LIBRARY);
    println!("cargo:rerun-if-env-changed=PANEL_LIB");
    println!("cargo:rerun-if-changed={}", library.display());
    if !library.is_file() {
        eprintln!("{} is not there: `tools/library` makes it, or PANEL_LIB names its folder", library.display());
        exit(1);
    }
    println!("cargo:rustc-link-search=native={}", folder.display());
    println!("cargo:rustc-link-lib=static=panel_c");
}
