//! Links the C library: from the folder that TEGVURN_LIB_DIR names, or else from `bindings/c/build`, where `make` in bindings/c builds it, or
//! else from where pkg-config finds an installed one.

use std::env;
use std::path::PathBuf;
use std::process::Command;

const ARCHIVE: &str = "libtegvurn.a";

/// Returns the folder of an installed library, if pkg-config knows it.
fn installed() -> Option<PathBuf> {
    let asked = Command::new("pkg-config")
        .args(["--variable=libdir", "tegvurn"])
        .output()
        .ok()?;
    let folder = String::from_utf8(asked.stdout).ok()?;
    (!folder.trim().is_empty()).then(|| PathBuf::from(folder.trim()))
}

/// Returns the folder that has the library.
fn find_library() -> Option<PathBuf> {
    if let Some(folder) = env::var_os("TEGVURN_LIB_DIR") {
        return Some(PathBuf::from(folder));
    }
    let built = PathBuf::from(env::var_os("CARGO_MANIFEST_DIR")?).join("../c/build");
    if built.join(ARCHIVE).exists() {
        return Some(built);
    }
    installed()
}

fn main() {
    println!("cargo:rerun-if-env-changed=TEGVURN_LIB_DIR");
    println!("cargo:rerun-if-env-changed=PKG_CONFIG_PATH");
    match find_library().filter(|folder| folder.join(ARCHIVE).exists()) {
        Some(folder) => {
            println!("cargo:rerun-if-changed={}", folder.join(ARCHIVE).display());
            println!("cargo:rustc-link-search=native={}", folder.display());
            println!("cargo:rustc-link-lib=static=tegvurn");
        }
        None => {
            eprintln!("{ARCHIVE} is not found. Install it with `tools/install PREFIX` from the repository and set PKG_CONFIG_PATH to");
            eprintln!("PREFIX/lib/pkgconfig, or set TEGVURN_LIB_DIR to the folder that has it.");
            std::process::exit(1);
        }
    }
}
