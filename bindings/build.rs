//! Links the proved library, `libreefnettle.a`.
//!
//! What it prints has one colon, and what is wrong goes to standard error: older
//! cargos know no other way. What is `pub` is tried by `tests/build.rs`.

use std::env;
use std::ffi::OsString;
use std::fs;
use std::path::{Path, PathBuf};
use std::process;

const ARCHIVE: &str = "libreefnettle.a";
const FOLDER_VARIABLE: &str = "REEFNETTLE_LIB_DIR";

/// Where `tools/archive` writes to, seen from this package's folder.
const FOLDER: &str = "../target/staticlib";

/// A variable that cargo sets when it runs this program. What `env!` says when it
/// is compiled may be another clone's, if the target folder was copied.
fn set_by_cargo(variable: &str) -> OsString {
    env::var_os(variable).unwrap_or_else(|| panic!("cargo sets {variable}"))
}

/// The archive in the folder that the environment names, else in the one that
/// `tools/archive` writes to. A relative name is relative to this package.
pub fn archive(named: Option<OsString>) -> PathBuf {
    named
        .map_or_else(|| PathBuf::from(FOLDER), PathBuf::from)
        .join(ARCHIVE)
}

/// Why the archive can't be linked for a target, if it can't.
pub fn unfit(arch: &str, os: &str) -> Option<String> {
    if (arch, os) == ("x86_64", "linux") {
        return None;
    }
    Some(format!(
        "{ARCHIVE} is for Linux on x86-64, and this build is for {os} on {arch}: build with \
         `--target x86_64-unknown-linux-gnu`, with that target's standard library \
         (`rustup target add x86_64-unknown-linux-gnu`) and a linker for it (named in \
         CARGO_TARGET_X86_64_UNKNOWN_LINUX_GNU_LINKER)"
    ))
}

/// Puts a copy of the archive beside what is built, and says so. Cargo knows that
/// folder again after it was moved; any other it would keep as it was.
fn link(archive: &Path) -> Result<(), String> {
    let package = PathBuf::from(set_by_cargo("CARGO_MANIFEST_DIR"));
    let out = PathBuf::from(set_by_cargo("OUT_DIR"));
    let from = package.join(archive);
    if !from.is_file() {
        return Err(format!(
            "there is no {}: make it by `tools/archive` in the top folder of the \
             repository, or name its folder in {FOLDER_VARIABLE}",
            from.display()
        ));
    }
    fs::copy(&from, out.join(ARCHIVE)).map_err(|error| format!("{}: {error}", from.display()))?;
    println!("cargo:rustc-link-search=native={}", out.display());
    println!("cargo:rustc-link-lib=static=reefnettle");
    Ok(())
}

fn main() {
    let archive = archive(env::var_os(FOLDER_VARIABLE));
    println!("cargo:rerun-if-env-changed={FOLDER_VARIABLE}");
    println!("cargo:rerun-if-changed={}", archive.display());
    let [arch, os] = ["ARCH", "OS"].map(|what| {
        let text = set_by_cargo(&format!("CARGO_CFG_TARGET_{what}"));
        text.to_string_lossy().into_owned()
    });
    let linked = unfit(&arch, &os).map_or_else(|| link(&archive), Err);
    if let Err(why) = linked {
        eprintln!("reefnettle: {why}");
        process::exit(1);
    }
}
