//! Links the proved library. This is the one place where Rust finds it. In this order: the file that
//! XAPOOL_LIB names; target/staticlib/libxapool.a of this project; lib/libxapool.a of a release that
//! this crate was unpacked with; what pkg-config says; the places where scripts/install puts it.

use std::path::{Path, PathBuf};
use std::process::{exit, Command};
use std::{env, fs};

const NAME: &str = "libxapool.a";

fn main() {
    for name in ["XAPOOL_LIB", "PKG_CONFIG_PATH", "HOME"] {
        println!("cargo:rerun-if-env-changed={name}");
    }
    let places = places();
    for place in &places {
        println!("cargo:rerun-if-changed={}", place.display());
    }
    let Some(library) = places.iter().find(|place| place.is_file()) else {
        eprintln!("no library {NAME}; looked for:");
        places.iter().for_each(|place| eprintln!("  {}", place.display()));
        eprintln!("run 'scripts/library' in the project, or name the file by XAPOOL_LIB");
        exit(1);
    };
    let out = PathBuf::from(env::var_os("OUT_DIR").unwrap_or_default());
    // A copy under the right name, so that XAPOOL_LIB may name any file.
    if let Err(error) = fs::copy(library, out.join(NAME)) {
        eprintln!("{}: {error}", library.display());
        exit(1);
    }
    println!("cargo:rustc-link-search=native={}", out.display());
    println!("cargo:rustc-link-lib=static=xapool");
}

/// Where the library may be. One that is named is the only one.
fn places() -> Vec<PathBuf> {
    if let Some(named) = env::var_os("XAPOOL_LIB") {
        return vec![named.into()];
    }
    let here = env::var_os("CARGO_MANIFEST_DIR").unwrap_or_default();
    let mut folders =
        ["../target/staticlib", "../lib"].map(|at| Path::new(&here).join(at)).to_vec();
    folders.extend(from_pkg_config());
    folders.extend(["/usr/local/lib", "/usr/lib"].map(PathBuf::from));
    folders.extend(env::var_os("HOME").map(|home| Path::new(&home).join(".local/lib")));
    folders.into_iter().map(|folder| folder.join(NAME)).collect()
}

fn from_pkg_config() -> Option<PathBuf> {
    let output = Command::new("pkg-config").args(["--variable=libdir", "xapool"]).output().ok()?;
    let folder = String::from_utf8(output.stdout).ok()?.trim().to_owned();
    (output.status.success() && !folder.is_empty()).then(|| folder.into())
}
