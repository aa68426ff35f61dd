//! Finds the archive, and says how to get one where there is none. Nothing is fetched, and nothing is compiled.

use std::path::{Path, PathBuf};
use std::process::{exit, Command};
use std::{env, fs};

const FILE: &str = "libdehlbazin.a";

const NOT_FOUND: &str = "dehlbazin: libdehlbazin.a was not found. One of these helps:
  - set DEHLBAZIN_ARCHIVE to the file;
  - set DEHLBAZIN_PREFIX to the folder that tools/install filled, or that a release was unpacked to;
  - have PREFIX/lib/pkgconfig in PKG_CONFIG_PATH, and pkg-config installed;
  - in a checkout, make it with: bash tools/archive";

fn main() {
    for name in ["DEHLBAZIN_ARCHIVE", "DEHLBAZIN_PREFIX", "PKG_CONFIG_PATH"] {
        println!("cargo:rerun-if-env-changed={name}");
    }
    println!("cargo:rerun-if-changed=build.rs");
    if env::var("CARGO_CFG_TARGET_ARCH").as_deref() != Ok("x86_64") {
        println!(
            "cargo:warning=libdehlbazin.a is x86-64 code: a program that links it needs --target x86_64-unknown-linux-gnu"
        );
    }
    match find() {
        Ok(archive) => link(&archive),
        Err(why) => stop(&why),
    }
}

fn stop(why: &str) -> ! {
    eprintln!("{why}");
    exit(1);
}

/// What the caller names is taken, or nothing: no other archive in its place.
fn find() -> Result<PathBuf, String> {
    if let Some(archive) = env::var_os("DEHLBAZIN_ARCHIVE") {
        return named("DEHLBAZIN_ARCHIVE", archive.into());
    }
    if let Some(prefix) = env::var_os("DEHLBAZIN_PREFIX") {
        return named("DEHLBAZIN_PREFIX", Path::new(&prefix).join("lib").join(FILE));
    }
    beside().filter(|archive| archive.is_file()).or_else(installed).ok_or_else(|| NOT_FOUND.to_string())
}

/// Where the archive lies as seen from this crate: in the tree that was installed, or in a checkout.
fn beside() -> Option<PathBuf> {
    let own = PathBuf::from(env::var_os("CARGO_MANIFEST_DIR")?);
    let folder = if own.ends_with("share/dehlbazin/rust") { "../../../lib" } else { "../../target/staticlib" };
    Some(own.join(folder).join(FILE))
}

fn named(variable: &str, archive: PathBuf) -> Result<PathBuf, String> {
    if archive.is_file() {
        return Ok(archive);
    }
    Err(format!("dehlbazin: there is no file {}, which {variable} leads to\n{NOT_FOUND}", archive.display()))
}

/// Where pkg-config knows of one.
fn installed() -> Option<PathBuf> {
    let said = Command::new("pkg-config").args(["--variable=prefix", "dehlbazin"]).output().ok()?;
    let prefix = String::from_utf8(said.stdout).ok()?;
    Some(Path::new(prefix.trim()).join("lib").join(FILE)).filter(|archive| said.status.success() && archive.is_file())
}

/// The file may have any name, and a linker goes by names: so a copy is linked.
fn link(archive: &Path) {
    println!("cargo:rerun-if-changed={}", archive.display());
    let folder = PathBuf::from(env::var_os("OUT_DIR").unwrap_or_default());
    if let Err(error) = fs::copy(archive, folder.join(FILE)) {
        stop(&format!("dehlbazin: {} cannot be copied to {}: {error}", archive.display(), folder.display()));
    }
    println!("cargo:rustc-link-search=native={}", folder.display());
    println!("cargo:rustc-link-lib=static=dehlbazin");
}
