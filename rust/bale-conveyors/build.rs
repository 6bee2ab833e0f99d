//! Finds the library that `c/build` makes, in the folder `BALE_C_DIR` or else in `c/out` of the
//! repository, and tells Cargo to link it: the proved archive, or the unproved one if it is alone.
//!
//! `cargo doc`, `cargo check` and `cargo clippy` link nothing. So without the library this script
//! only warns, and the linker refuses whatever has to be linked.
use std::path::{Path, PathBuf};
use std::{env, process::Command};

fn main() {
    println!("cargo:rerun-if-env-changed=BALE_C_DIR");
    let folder = env::var_os("BALE_C_DIR").map_or_else(in_repository, PathBuf::from);
    let names = ["bale_c", "bale_c_unproved"];
    for name in names {
        println!("cargo:rerun-if-changed={}", archive(&folder, name).display());
    }
    let found = names.into_iter().find(|name| archive(&folder, name).exists());
    if found.is_none() && env::var_os("DOCS_RS").is_none() {
        println!(
            "cargo:warning=no libbale_c.a in {}: run c/build of the repository, or set BALE_C_DIR \
             to the library's folder (documentation and checks need no library)",
            folder.display()
        );
    }
    println!("cargo:rustc-link-search=native={}", folder.display());
    println!("cargo:rustc-link-lib=static={}", found.unwrap_or(names[0]));
    link_allocator(&folder.join("heap.o"));
}

fn in_repository() -> PathBuf {
    PathBuf::from(env::var_os("CARGO_MANIFEST_DIR").expect("set by Cargo")).join("../../c/out")
}

fn archive(folder: &Path, name: &str) -> PathBuf {
    folder.join(format!("lib{name}.a"))
}

/// Links the library's allocator calls, if they are beside the archive in an object file of their
/// own and not in it.
fn link_allocator(object: &Path) {
    println!("cargo:rerun-if-changed={}", object.display());
    if !object.exists() {
        return;
    }
    let out = PathBuf::from(env::var_os("OUT_DIR").expect("set by Cargo"));
    let ar = env::var_os("AR").unwrap_or_else(|| "ar".into());
    let made = Command::new(&ar).arg("rcs").arg(archive(&out, "bale_heap")).arg(object).status();
    if !made.is_ok_and(|status| status.success()) {
        println!("cargo:warning={} could not pack {}", ar.to_string_lossy(), object.display());
    }
    println!("cargo:rustc-link-search=native={}", out.display());
    println!("cargo:rustc-link-lib=static=bale_heap");
}
