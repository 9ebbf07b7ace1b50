//! Links libcoordcache.a: the one in the folder COORDCACHE_LIB_DIR where that is set, else the one that `tests/staticlib coordcache`
//! proves and builds in this repository, which takes some minutes.

use std::env;
use std::fs;
use std::path::{Path, PathBuf};
use std::process::Command;

const VARIABLE: &str = "COORDCACHE_LIB_DIR";
const ARCHIVE: &str = "libcoordcache.a";

/// What a failure says of the time.
const TIME: &str = "in some minutes";

/// Lines of the output that it shows.
const SHOWN: usize = 15;

/// How `tests/staticlib` ends where rt is not on the PATH.
const NO_RT: i32 = 127;

fn main() {
    println!("cargo::rerun-if-changed=build.rs");
    println!("cargo::rerun-if-env-changed={VARIABLE}");
    if target("ARCH") != "x86_64" || target("OS") != "linux" {
        return; // src/lib.rs stops the build and says why
    }
    let folder = match env::var_os(VARIABLE) {
        Some(folder) if !folder.is_empty() => given(Path::new(&folder)),
        _ => proved(),
    };
    println!("cargo::rustc-link-search=native={}", folder.display());
    println!("cargo::rustc-link-lib=static=coordcache");
}

fn target(what: &str) -> String {
    env::var(format!("CARGO_CFG_TARGET_{what}")).unwrap_or_default()
}

/// The folder that the variable names. A relative one counts from this package.
fn given(folder: &Path) -> PathBuf {
    let archive = folder.join(ARCHIVE);
    println!("cargo::rerun-if-changed={}", archive.display());
    match folder.canonicalize() {
        Ok(found) if archive.is_file() => found,
        _ => panic!("{VARIABLE} is set to {}, and there is no {ARCHIVE} there", folder.display()),
    }
}

/// Has cargo run this again where a source of the crates changes. `out/`, beside those, is rt's own.
fn watch(root: &Path) {
    println!("cargo::rerun-if-changed=../crates.txt");
    let crates = fs::read_dir(root.join("crates")).expect("the repository has its crates");
    for one in crates.flatten() {
        for part in ["src", "specs", "proofs"].map(|part| one.path().join(part)) {
            if part.is_dir() {
                println!("cargo::rerun-if-changed={}", part.display());
            }
        }
    }
}

/// The folder to which `tests/staticlib` copies the archive, once every crate beneath it is proved.
fn proved() -> PathBuf {
    let root = Path::new(env!("CARGO_MANIFEST_DIR")).parent().expect("the package stands in the repository");
    watch(root);
    let otherwise = format!("You can also set {VARIABLE} to a folder that holds {ARCHIVE}.");
    let ran = match Command::new(root.join("tests/staticlib")).arg("coordcache").output() {
        Ok(ran) => ran,
        Err(why) => panic!("`tests/staticlib coordcache` does not start: {why}\n{otherwise}"),
    };
    if ran.status.code() == Some(NO_RT) {
        panic!("`tests/staticlib coordcache` is to prove and build {ARCHIVE}, {TIME}, but rt is not on the PATH.\n{otherwise}");
    }
    if !ran.status.success() {
        let said = [ran.stdout, ran.stderr].concat();
        let said = String::from_utf8_lossy(&said);
        let lines: Vec<&str> = said.lines().collect();
        let last = lines[lines.len().saturating_sub(SHOWN)..].join("\n");
        panic!(
            "`tests/staticlib coordcache`, which proves and builds {ARCHIVE}, {TIME}, failed ({}); its last lines:\n{last}\n{otherwise}",
            ran.status
        );
    }
    let folder = root.join("target/staticlib");
    let archive = folder.join(ARCHIVE);
    assert!(archive.is_file(), "`tests/staticlib coordcache` ended well, but there is no {}", archive.display());
    folder
}
