//! Finds the archive libkohiblad.a: in the directory `KOHIBLAD_LIB_DIR`, or else in the folder `lib`
//! of this crate, where a release has it, or else where pkg-config says that the library is
//! installed. If `DOCS_RS` is set, it needs none: docs.rs builds the pages alone, where the library
//! is not installed.

use std::env;
use std::path::Path;
use std::process::Command;

const ARCHIVE: &str = "libkohiblad.a";
const NEEDED: &str = "kohiblad >= 0.9";

fn main() {
    for variable in [
        "DOCS_RS",
        "KOHIBLAD_LIB_DIR",
        "PKG_CONFIG",
        "PKG_CONFIG_PATH",
    ] {
        println!("cargo:rerun-if-env-changed={variable}");
    }
    if env::var_os("DOCS_RS").is_some() {
        return;
    }
    let directory = env::var("KOHIBLAD_LIB_DIR").unwrap_or_else(|_| released_or_installed());
    let archive = Path::new(&directory).join(ARCHIVE);
    assert!(archive.is_file(), "there is no {}", archive.display());
    println!("cargo:rerun-if-changed={}", archive.display());
    println!("cargo:rustc-link-search=native={directory}");
    println!("cargo:rustc-link-lib=static=kohiblad");
}

/// The folder `lib` of a release, or the directory of the installed library.
fn released_or_installed() -> String {
    let folder = env::var("CARGO_MANIFEST_DIR").expect("cargo sets it") + "/lib";
    if Path::new(&folder).join(ARCHIVE).is_file() {
        folder
    } else {
        installed()
    }
}

/// The directory that pkg-config returns.
fn installed() -> String {
    let program = env::var("PKG_CONFIG").unwrap_or_else(|_| "pkg-config".into());
    let output = Command::new(&program)
        .args(["--print-errors", "--variable=libdir", NEEDED])
        .output()
        .unwrap_or_else(|error| panic!("{program} cannot run: {error}; or set KOHIBLAD_LIB_DIR"));
    assert!(
        output.status.success(),
        "{}set PKG_CONFIG_PATH or KOHIBLAD_LIB_DIR",
        String::from_utf8_lossy(&output.stderr)
    );
    String::from_utf8(output.stdout)
        .expect("pkg-config prints UTF-8")
        .trim()
        .into()
}
