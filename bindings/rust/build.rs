//! Tells cargo where the library is: in TILVENKA_PMP_LIB, in this release, where pkg-config says, or else where the
//! linker looks.

use std::env;
use std::path::PathBuf;
use std::process::Command;

/// The folder beside this crate, if it is part of an unpacked or installed release.
fn in_release(file: &str) -> Option<PathBuf> {
    let folder = PathBuf::from(env::var_os("CARGO_MANIFEST_DIR")?).join("../../../lib");
    folder.join(file).is_file().then_some(folder)
}

fn told_by_pkg_config() -> Option<PathBuf> {
    let output = Command::new("pkg-config")
        .args(["--variable=libdir", "tilvenka_pmp"])
        .output()
        .ok()?;
    let folder = String::from_utf8(output.stdout).ok()?.trim().to_string();
    (output.status.success() && !folder.is_empty()).then(|| folder.into())
}

fn main() {
    for name in ["TILVENKA_PMP_LIB", "PKG_CONFIG_PATH"] {
        println!("cargo:rerun-if-env-changed={name}");
    }
    let (kind, file) = if env::var_os("CARGO_FEATURE_SHARED").is_some() {
        ("dylib", "libtilvenka_pmp.so")
    } else {
        ("static", "libtilvenka_pmp.a")
    };
    let folder = env::var_os("TILVENKA_PMP_LIB")
        .map(PathBuf::from)
        .or_else(|| in_release(file))
        .or_else(told_by_pkg_config);
    match folder {
        Some(folder) => println!("cargo:rustc-link-search=native={}", folder.display()),
        None => println!(
            "cargo:warning=no release is round this crate, and pkg-config knows no tilvenka_pmp: unless the linker \
             finds {file} by itself, set TILVENKA_PMP_LIB to its folder"
        ),
    }
    println!("cargo:rustc-link-lib={kind}=tilvenka_pmp");
}
