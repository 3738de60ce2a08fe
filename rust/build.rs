//! Links the archive of the proved library for the target.

use std::env;
use std::ffi::OsString;
use std::path::{Path, PathBuf};
use std::process::exit;

/// The folder of the archive; where it is not set, one of the repository, by the target.
const FOLDER: &str = "NERUPAZHIL_STATICLIB";

const ARCHIVE: &str = "libnerupazhil.a";

/// The archives of the repository: the architecture that each is for, its folder, and the command that writes it.
const FOLDERS: [(&str, &str, &str); 2] = [
    ("x86_64", "target/staticlib", "tools/staticlib"),
    ("aarch64", "target/archives/aarch64-linux", "./archives"),
];

fn main() {
    println!("cargo:rerun-if-env-changed={FOLDER}");
    let package = PathBuf::from(env::var_os("CARGO_MANIFEST_DIR").unwrap_or_default());
    let target = |name: &str| env::var(name).unwrap_or_default();
    let (arch, os) = (
        target("CARGO_CFG_TARGET_ARCH"),
        target("CARGO_CFG_TARGET_OS"),
    );
    match folder(&package, env::var_os(FOLDER), &arch, &os) {
        Ok(folder) => {
            println!("cargo:rerun-if-changed={}", folder.join(ARCHIVE).display());
            println!("cargo:rustc-link-search=native={}", folder.display());
            println!("cargo:rustc-link-lib=static=nerupazhil");
        }
        Err(why) => {
            eprintln!("{why}");
            exit(1);
        }
    }
}

/// The folder that has the archive for a target, or what to do where there is none.
pub fn folder(
    package: &Path,
    given: Option<OsString>,
    arch: &str,
    os: &str,
) -> Result<PathBuf, String> {
    let (folder, remedy) = match (given, repository(arch, os)) {
        (Some(folder), _) => (folder.into(), format!("{FOLDER} names its folder")),
        (None, Some((folder, command))) => (
            package.join("..").join(folder),
            format!("run {command} in the repository"),
        ),
        (None, None) => {
            return Err(format!(
                "there is no archive for {os} on {arch}, only for Linux and Android on x86_64 and aarch64: \
                {FOLDER} can name the folder of one for this target"
            ))
        }
    };
    let archive = folder.join(ARCHIVE);
    match archive.is_file() {
        true => Ok(folder),
        false => Err(format!("{} is missing: {remedy}", archive.display())),
    }
}

/// The folder of the repository for a target, and the command that writes the archive there.
fn repository(arch: &str, os: &str) -> Option<(&'static str, &'static str)> {
    if !matches!(os, "linux" | "android") {
        return None;
    }
    let row = FOLDERS.iter().find(|(known, ..)| *known == arch);
    row.map(|(_, folder, command)| (*folder, *command))
}
