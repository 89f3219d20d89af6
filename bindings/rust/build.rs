//! Finds what is linked: nothing where only the documentation is built (docs.rs), or for a target on which the crate does not compile, as
//! `src/lib.rs` says then. A released crate has it in its own folder: `lib/libzuphinka.a`, with what it allocates by. Else it is the
//! C library of the core, `libzuphinka.a`, in the folder that ZUPHINKA_LIB names or else in `crates/zuphinka/out` of this
//! repository; and the file by which it allocates, the one that ZUPHINKA_HEAP names or else `c/liblibc_c.a` of the kit whose guide
//! `rt doc` names.

use std::path::{Path, PathBuf};
use std::process::Command;
use std::{env, fs};

fn main() {
    println!("cargo:rerun-if-env-changed=ZUPHINKA_LIB");
    println!("cargo:rerun-if-env-changed=ZUPHINKA_HEAP");
    println!("cargo:rerun-if-env-changed=DOCS_RS");
    if env::var_os("DOCS_RS").is_some() || !has_target() {
        return;
    }
    if let Err(fault) = link() {
        eprintln!("zuphinka: {fault}");
        std::process::exit(1);
    }
}

/// Returns whether there is a library for the target.
fn has_target() -> bool {
    let is = |key: &str, value: &str| env::var(key).is_ok_and(|told| told == value);
    is("CARGO_CFG_TARGET_OS", "linux") && is("CARGO_CFG_TARGET_ARCH", "x86_64")
}

fn named(variable: &str) -> Option<PathBuf> {
    env::var_os(variable)
        .filter(|name| !name.is_empty())
        .map(PathBuf::from)
}

fn link() -> Result<(), String> {
    // Read now: a clone may have been moved since this program was compiled.
    let own = PathBuf::from(env::var_os("CARGO_MANIFEST_DIR").expect("cargo sets the variable"));
    let released = own.join("lib/libzuphinka.a");
    let library = named("ZUPHINKA_LIB");
    if library.is_none() && released.exists() {
        return take(&released, "zuphinka");
    }
    let folder = library.unwrap_or_else(|| own.join("../../crates/zuphinka/out"));
    take(&folder.join("libzuphinka.a"), "zuphinka").map_err(|fault| {
        format!(
            "{fault}. Build it by `python3 tools/build.py zuphinka`, or name its folder in ZUPHINKA_LIB."
        )
    })?;
    let heap = named("ZUPHINKA_HEAP").map_or_else(heap_of_kit, Ok)?;
    take(&heap, "zuphinka_heap")
        .map_err(|fault| format!("{fault}. Name the kit's liblibc_c.a in ZUPHINKA_HEAP."))
}

/// Links a copy of an archive under a name.
fn take(archive: &Path, name: &str) -> Result<(), String> {
    println!("cargo:rerun-if-changed={}", archive.display());
    let out = PathBuf::from(env::var_os("OUT_DIR").expect("cargo sets OUT_DIR"));
    let copied = fs::copy(archive, out.join(format!("lib{name}.a")));
    copied.map_err(|error| format!("{}: {error}", archive.display()))?;
    println!("cargo:rustc-link-search=native={}", out.display());
    println!("cargo:rustc-link-lib=static={name}");
    Ok(())
}

fn heap_of_kit() -> Result<PathBuf, String> {
    let told = Command::new("rt").arg("doc").output();
    let told = told.map_err(|error| {
        format!("rt: {error}. Put the kit's command on the PATH, or name its liblibc_c.a in ZUPHINKA_HEAP.")
    })?;
    let guide = String::from_utf8_lossy(&told.stdout).trim().to_owned();
    Ok(Path::new(&guide).with_file_name("c").join("liblibc_c.a"))
}
