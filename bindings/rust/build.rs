//! Finds the installed library: below COMPRESSOR_DIR, the prefix of `tools/install`, or by pkg-config.

use std::env;
use std::path::{Path, PathBuf};
use std::process::{exit, Command};

fn main() {
    println!("cargo:rerun-if-changed=build.rs");
    for it in ["COMPRESSOR_DIR", "PKG_CONFIG", "PKG_CONFIG_PATH"] {
        println!("cargo:rerun-if-env-changed={it}");
    }
    let (lib, include) = match env::var_os("COMPRESSOR_DIR") {
        Some(prefix) => below(Path::new(&prefix)),
        None => by_pkg_config(),
    };
    // The static archive, so that a program stands alone; the shared library where there is no other, or by the
    // feature `shared`.
    let archive = lib.join("libcompressor.a");
    let is_shared = env::var_os("CARGO_FEATURE_SHARED").is_some();
    let kind = if archive.exists() && !is_shared { "static" } else { "dylib" };
    if kind == "dylib" && !lib.join("libcompressor.so").exists() {
        let archives = if is_shared { "" } else { "no libcompressor.a and " };
        fail(&format!("there is {archives}no libcompressor.so in {}", lib.display()));
    }
    println!("cargo:rerun-if-changed={}", archive.display());
    println!("cargo:rustc-link-search=native={}", lib.display());
    println!("cargo:rustc-link-lib={kind}=compressor");
    println!("cargo:include={}", include.display());
    println!("cargo:libdir={}", lib.display());
    println!("cargo:rustc-env=COMPRESSOR_INCLUDE={}", include.display());
}

/// The folders of the library and of its headers below the prefix of an installation.
fn below(prefix: &Path) -> (PathBuf, PathBuf) {
    let libs = ["lib", "lib64", "lib/x86_64-linux-gnu"].map(|it| prefix.join(it));
    let has =
        |it: &&PathBuf| it.join("libcompressor.a").exists() || it.join("libcompressor.so").exists();
    let lib = libs.iter().find(has).unwrap_or(&libs[0]).clone();
    (lib, prefix.join("include"))
}

/// The folders of the library and of its headers, of a version with which this crate may be linked.
fn by_pkg_config() -> (PathBuf, PathBuf) {
    let major: u32 = env!("CARGO_PKG_VERSION_MAJOR").parse().unwrap_or(1);
    let at_least = format!("compressor >= {}", env!("CARGO_PKG_VERSION"));
    let below = format!("compressor < {}", major + 1);
    pkg_config(&["--print-errors", "--exists", &at_least, &below]);
    let folder = |name| PathBuf::from(pkg_config(&["--print-errors", name, "compressor"]));
    (folder("--variable=libdir"), folder("--variable=includedir"))
}

/// What pkg-config prints.
fn pkg_config(words: &[&str]) -> String {
    let tool = env::var_os("PKG_CONFIG").unwrap_or_else(|| "pkg-config".into());
    match Command::new(&tool).args(words).output() {
        Ok(said) if said.status.success() => String::from_utf8_lossy(&said.stdout).trim().into(),
        Ok(said) => fail(&String::from_utf8_lossy(&said.stderr)),
        Err(error) => fail(&format!("{}: {error}", Path::new(&tool).display())),
    }
}

fn fail(why: &str) -> ! {
    eprintln!("compressor: the library is not found: {}", why.trim());
    eprintln!("Install it (tools/install PREFIX), and set COMPRESSOR_DIR=PREFIX,");
    eprintln!("or PKG_CONFIG_PATH=PREFIX/lib/pkgconfig.");
    exit(1)
}
