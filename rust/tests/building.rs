//! Which archive the build links, by the target and by the variable that names a folder.

#[allow(dead_code)]
#[path = "../build.rs"]
mod build;

use std::ffi::OsString;
use std::fs;
use std::path::{Path, PathBuf};

const X86_64: &str = "target/staticlib";
const AARCH64: &str = "target/archives/aarch64-linux";

/// A repository that has archives in some folders.
struct Repository(PathBuf);

impl Repository {
    fn new(name: &str, folders: &[&str]) -> Self {
        let root = Path::new(env!("CARGO_TARGET_TMPDIR")).join(name);
        let _ = fs::remove_dir_all(&root);
        fs::create_dir_all(root.join("rust")).unwrap();
        for folder in folders {
            let folder = root.join(folder);
            fs::create_dir_all(&folder).unwrap();
            fs::write(folder.join("libnerupazhil.a"), "!<arch>\n").unwrap();
        }
        Self(root)
    }

    fn package(&self) -> PathBuf {
        self.0.join("rust")
    }

    /// What the build finds without the variable: a folder of the repository.
    fn found(&self, arch: &str, os: &str) -> Result<PathBuf, String> {
        build::folder(&self.package(), None, arch, os)
    }

    /// A folder, as the build names it.
    fn folder(&self, name: &str) -> PathBuf {
        self.package().join("..").join(name)
    }
}

#[test]
fn each_architecture_has_its_folder() {
    let repository = Repository::new("both-archives", &[X86_64, AARCH64]);
    for os in ["linux", "android"] {
        assert_eq!(
            repository.found("x86_64", os),
            Ok(repository.folder(X86_64))
        );
        assert_eq!(
            repository.found("aarch64", os),
            Ok(repository.folder(AARCH64))
        );
    }
}

/// The archive of another architecture is of no use.
#[test]
fn a_missing_archive_is_told_with_its_command() {
    for (there, arch, missing, command) in [
        (AARCH64, "x86_64", X86_64, "tools/staticlib"),
        (X86_64, "aarch64", AARCH64, "./archives"),
    ] {
        let repository = Repository::new(&format!("no-{arch}-archive"), &[there]);
        let archive = repository.folder(missing).join("libnerupazhil.a");
        let told = format!(
            "{} is missing: run {command} in the repository",
            archive.display()
        );
        assert_eq!(repository.found(arch, "linux"), Err(told));
    }
}

#[test]
fn other_targets_are_refused() {
    let repository = Repository::new("other-targets", &[X86_64, AARCH64]);
    for (arch, os) in [
        ("riscv64", "linux"),
        ("arm", "android"),
        ("aarch64", "macos"),
        ("aarch64", "ios"),
        ("x86_64", "windows"),
        ("", ""),
    ] {
        let told = repository.found(arch, os).unwrap_err();
        let start = format!("there is no archive for {os} on {arch}, ");
        assert!(told.starts_with(&start), "{told}");
        assert!(told.contains("NERUPAZHIL_STATICLIB can name the folder"));
    }
}

/// The variable comes before the repository's folders, for every target.
#[test]
fn the_variable_names_the_folder() {
    let repository = Repository::new("a-named-folder", &[X86_64, AARCH64, "elsewhere"]);
    let named = repository.0.join("elsewhere");
    let given = |folder: &Path| Some(OsString::from(folder));
    for (arch, os) in [
        ("x86_64", "linux"),
        ("aarch64", "android"),
        ("aarch64", "ios"),
        ("riscv64", "linux"),
    ] {
        let found = build::folder(&repository.package(), given(&named), arch, os);
        assert_eq!(found, Ok(named.clone()));
    }
    let empty = repository.0.join("rust");
    let told = build::folder(&repository.package(), given(&empty), "x86_64", "linux").unwrap_err();
    assert!(told.ends_with("libnerupazhil.a is missing: NERUPAZHIL_STATICLIB names its folder"));
}
