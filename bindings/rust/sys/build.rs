//! Finds the library: in the folder that `TILGWAREN_FOLDER` names; else by `pkg-config`; else in
//! `native` (in a release) or `bindings/out` (in the repository; for ARM64 `bindings/out/aarch64`).
//!
//! Without the library, or for another target, only linking fails: `cargo check`, `cargo doc` and
//! editors don't need it.

use std::env;
use std::path::{Path, PathBuf};
use std::process::Command;

fn main() {
    for name in ["TILGWAREN_FOLDER", "PKG_CONFIG", "PKG_CONFIG_PATH"] {
        println!("cargo:rerun-if-env-changed={name}");
    }
    let target = env::var("TARGET").unwrap_or_default();
    let known = target.starts_with("x86_64-") || target.starts_with("aarch64-");
    if !(known && target.contains("-linux-")) {
        println!(
            "cargo:warning=the library is code for Linux on x86-64 or ARM64: no program for {target} links"
        );
    }
    let found = env::var_os("TILGWAREN_FOLDER")
        .map(PathBuf::from)
        .or_else(packaged)
        .or_else(|| beside(&target));
    let shared = match &found {
        Some(folder) => link(folder),
        None => false,
    };
    if shared {
        println!("cargo:rustc-link-lib=dylib=tilgwaren");
    } else {
        // Not bundled, so that crates compile without the archive.
        println!("cargo:rustc-link-lib=static:-bundle=tilgwaren");
    }
}

// Links from a folder: statically if it has the archive. Says whether only the shared library is
// there.
fn link(folder: &Path) -> bool {
    let archive = folder.join("libtilgwaren.a");
    println!("cargo:rustc-link-search=native={}", folder.display());
    println!("cargo:rerun-if-changed={}", archive.display());
    let shared = !archive.is_file() && folder.join("libtilgwaren.so").is_file();
    if !shared && !archive.is_file() {
        println!(
            "cargo:warning={} not found: run bindings/build.sh or install a release before you link",
            archive.display()
        );
    }
    shared
}

// The folder that `pkg-config` says, if the version there fits this crate.
fn packaged() -> Option<PathBuf> {
    let number = |name| env::var(name).ok()?.parse::<u32>().ok();
    let major = number("CARGO_PKG_VERSION_MAJOR")?;
    let minor = number("CARGO_PKG_VERSION_MINOR")?;
    let version = format!("tilgwaren >= {major}.{minor} tilgwaren < {major}.{}", minor + 1);
    let program = env::var_os("PKG_CONFIG").unwrap_or_else(|| "pkg-config".into());
    let said = |words: [&str; 2]| {
        let said = Command::new(&program).args(words).output().ok()?;
        said.status.success().then(|| said.stdout)
    };
    said(["--exists", &version])?;
    let folder = String::from_utf8(said(["--variable=libdir", "tilgwaren"])?).ok()?;
    // It writes a backslash before a blank.
    let mut escapes = false;
    let is_meant = |letter: &char| {
        escapes = *letter == '\\' && !escapes;
        !escapes
    };
    Some(
        folder
            .trim()
            .chars()
            .filter(is_meant)
            .collect::<String>()
            .into(),
    )
}

// The folder of a release's crate, or of the repository, which has another folder for ARM64.
fn beside(target: &str) -> Option<PathBuf> {
    let here = PathBuf::from(env::var_os("CARGO_MANIFEST_DIR")?);
    let native = here.join("native");
    Some(if native.is_dir() {
        native
    } else {
        here.join(if target.starts_with("aarch64-") {
            "../../out/aarch64"
        } else {
            "../../out"
        })
    })
}
