//! Finds the static library: in the folder PALLIHUN_LIB_DIR, where pkg-config says that it is installed, or in this
//! repository.

use std::env;
use std::path::{Path, PathBuf};
use std::process::{exit, Command};

const ARCHIVE: &str = "libpallihun.a";

fn main() {
    for variable in ["PALLIHUN_LIB_DIR", "PKG_CONFIG_PATH", "PKG_CONFIG_LIBDIR"] {
        println!("cargo:rerun-if-env-changed={variable}");
    }
    let folder = folder().unwrap_or_else(|why| {
        eprintln!("{why}");
        exit(1)
    });
    println!("cargo:rerun-if-changed={}", folder.join(ARCHIVE).display());
    println!("cargo:rustc-link-search=native={}", folder.display());
    println!("cargo:rustc-link-lib=static=pallihun");
}

/// The folder of the archive, or why there is none.
fn folder() -> Result<PathBuf, String> {
    if let Some(given) = env::var_os("PALLIHUN_LIB_DIR").map(PathBuf::from) {
        let why = || format!("PALLIHUN_LIB_DIR is {}, and there is no {ARCHIVE}: `make lib` makes it", given.display());
        return has_archive(&given).ok_or_else(why);
    }
    let own = Path::new(env!("CARGO_MANIFEST_DIR")).join("../../target/lib");
    let why = || format!("no {ARCHIVE} in {}: `make lib` makes it, PALLIHUN_LIB_DIR says where it is", own.display());
    installed().and_then(|folder| has_archive(&folder)).or_else(|| has_archive(&own)).ok_or_else(why)
}

/// The folder that pkg-config names, if it knows the library.
fn installed() -> Option<PathBuf> {
    let output = Command::new("pkg-config").args(["--variable=libdir", "pallihun"]).output().ok()?;
    let folder = String::from_utf8(output.stdout).ok()?;
    output.status.success().then(|| PathBuf::from(folder.trim_end()))
}

/// The folder by its whole path, if the archive is there.
fn has_archive(folder: &Path) -> Option<PathBuf> {
    folder.join(ARCHIVE).is_file().then(|| folder.canonicalize().ok())?
}
