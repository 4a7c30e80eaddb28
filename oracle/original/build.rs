//! Finds the original's lut.rs and check.rs and writes where they are, so that their text stays where it is.

use std::path::{Path, PathBuf};
use std::{env, fs, process};

const VARIABLE: &str = "EQMAP_SRC";

fn main() {
    println!("cargo:rerun-if-env-changed={VARIABLE}");
    if let Err(message) = written() {
        eprintln!("{message}");
        process::exit(1);
    }
}

fn written() -> Result<(), String> {
    let folder = env::var(VARIABLE)
        .map_err(|_| format!("{VARIABLE} is not set: name the folder that holds the original's lut.rs and check.rs"))?;
    let mut text = String::new();
    for module in ["check", "lut"] {
        let path = found(Path::new(&folder), module)?;
        println!("cargo:rerun-if-changed={}", path.display());
        text += &format!("#[allow(warnings, clippy::all)]\n#[path = {path:?}]\npub mod {module};\n");
    }
    let out = env::var("OUT_DIR").map_err(|error| error.to_string())?;
    fs::write(Path::new(&out).join("modules.rs"), text).map_err(|error| error.to_string())
}

/// The module's file, under its own name or with .txt behind it.
fn found(folder: &Path, module: &str) -> Result<PathBuf, String> {
    let names = [format!("{module}.rs"), format!("{module}.rs.txt")];
    let paths = names.iter().map(|name| folder.join(name));
    let path = paths.into_iter().find(|path| path.is_file());
    let path =
        path.ok_or_else(|| format!("{VARIABLE}: neither {} nor {} is in {}", names[0], names[1], folder.display()))?;
    path.canonicalize().map_err(|error| format!("{}: {error}", path.display()))
}
