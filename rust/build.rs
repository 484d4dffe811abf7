//! Finds libcipangohu.a: in the folder that CIPANGOHU_LIB names, else in ../dist, where
//! `scripts/build-library` puts it. Where it is not found a warning says so, since the linker would
//! not: documents and checks need no archive.

use std::env;
use std::path::{Path, PathBuf};

/// The folder with the archive. A relative one is refused, since a build script is not told where
/// the command was typed. An empty name counts as none, as in the shell.
fn folder() -> Result<PathBuf, String> {
    let named = env::var_os("CIPANGOHU_LIB").filter(|name| !name.is_empty());
    let Some(folder) = named.map(PathBuf::from) else {
        return Ok(Path::new(env!("CARGO_MANIFEST_DIR")).join("../dist"));
    };
    match folder.is_absolute() {
        true => Ok(folder),
        false => Err(format!(
            "CIPANGOHU_LIB is {}, a relative path; it must be absolute, as $PWD/{0} is",
            folder.display()
        )),
    }
}

fn main() {
    println!("cargo::rerun-if-env-changed=CIPANGOHU_LIB");
    let folder = match folder() {
        Ok(folder) => folder,
        Err(reason) => return println!("cargo::error={reason}"),
    };
    let archive = folder.join("libcipangohu.a");
    let name = archive.display();
    println!("cargo::rerun-if-changed={name}");
    println!("cargo::rustc-env=CIPANGOHU_ARCHIVE={name}");
    if !archive.is_file() {
        return println!(
            "cargo::warning={name} is missing, so that nothing can be linked: \
             run scripts/build-library, or name its folder in CIPANGOHU_LIB"
        );
    }
    println!("cargo::rustc-link-search=native={}", folder.display());
    println!("cargo::rustc-link-lib=static=cipangohu");
}
