//! Finds the library for C: in the folder that GEOLINT_LIB_DIR names, otherwise in the folder `lib` of this crate, otherwise where
//! pkg-config knows it. It links `libgeolint.a` where that is there, and otherwise `libgeolint.so`.

use std::env;
use std::path::Path;
use std::process::{exit, Command};

/// What a command prints, where it ends well.
fn printed(command: &mut Command) -> Option<String> {
    let output = command.output().ok().filter(|output| output.status.success())?;
    Some(String::from_utf8(output.stdout).ok()?.trim().to_owned())
}

/// The number after `1.` in the compiler's version.
fn minor_version() -> Option<u32> {
    let version = printed(Command::new(env::var_os("RUSTC")?).arg("--version"))?;
    version.split('.').nth(1)?.parse().ok()
}

/// The library that the packaged crate brings, which is for one processor and system.
fn own() -> Option<String> {
    let folder = Path::new(&env::var_os("CARGO_MANIFEST_DIR")?).join("lib").join(env::var_os("TARGET")?);
    folder.join("libgeolint.a").exists().then(|| folder.display().to_string())
}

fn known() -> Option<String> {
    let tool = env::var_os("PKG_CONFIG").unwrap_or_else(|| "pkg-config".into());
    printed(Command::new(tool).args(["--variable=libdir", "geolint"])).filter(|folder| !folder.is_empty())
}

fn main() {
    for name in ["GEOLINT_LIB_DIR", "PKG_CONFIG", "PKG_CONFIG_PATH"] {
        println!("cargo:rerun-if-env-changed={name}");
    }
    let minor = minor_version().unwrap_or(u32::MAX);
    if minor >= 80 {
        println!("cargo:rustc-check-cfg=cfg(geolint_before_rust_1_82)");
    }
    if minor < 82 {
        println!("cargo:rustc-cfg=geolint_before_rust_1_82");
    }
    let folder = match env::var("GEOLINT_LIB_DIR").ok().or_else(own).or_else(known) {
        Some(folder) => folder,
        None => {
            eprintln!("geolint: pkg-config knows no geolint: set PKG_CONFIG_PATH, or set GEOLINT_LIB_DIR to the folder of libgeolint.a");
            exit(1)
        }
    };
    let kind = if Path::new(&folder).join("libgeolint.a").exists() { "static" } else { "dylib" };
    println!("cargo:rustc-link-search=native={folder}");
    println!("cargo:rustc-link-lib={kind}=geolint");
}
