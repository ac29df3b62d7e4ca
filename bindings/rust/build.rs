//! Links libengine.a of target/staticlib in the repository, or of the folder that `TUREPAWON_LIB` names. Where the repository's is missing, its `tools/static-library` makes it, with `rt`. Without one only linking fails: checking and documenting need none.
use std::path::{Path, PathBuf};
use std::process::Command;
use std::{env, fs};

const ARCHIVE: &str = "libengine.a";

fn main() {
    println!("cargo:rerun-if-changed=build.rs");
    println!("cargo:rerun-if-env-changed=TUREPAWON_LIB");
    let repository = repository();
    let named = env::var_os("TUREPAWON_LIB").filter(|name| !name.is_empty()).map(PathBuf::from);
    let folder = named.as_ref().map_or_else(|| repository.join("target/staticlib"), |name| named_folder(name, &repository));
    // a file that is not there has cargo run this script again
    println!("cargo:rerun-if-changed={}", folder.join(ARCHIVE).display());
    if is_to_link() {
        if let Err(what_to_do) = provide(&folder, named.is_some(), &repository) {
            println!("cargo:warning={what_to_do}");
        }
    }
    println!("cargo:rustc-link-search=native={}", folder.display());
    println!("cargo:rustc-link-lib=static=engine");
}

fn repository() -> PathBuf {
    let here = PathBuf::from(env::var_os("CARGO_MANIFEST_DIR").unwrap_or_default());
    here.ancestors().nth(2).map_or_else(|| here.join("../.."), Path::to_path_buf)
}

/// What Linux tells of the cargo that runs this script; a folder that is not there, on another system.
fn cargo() -> PathBuf {
    let status = fs::read_to_string("/proc/self/status").unwrap_or_default();
    let parent = status.lines().find_map(|line| line.strip_prefix("PPid:")).unwrap_or("none");
    Path::new("/proc").join(parent.trim())
}

/// A relative name is meant from where cargo was called, or else from the repository. This script runs in neither.
fn named_folder(name: &Path, repository: &Path) -> PathBuf {
    let called_in = fs::read_link(cargo().join("cwd")).unwrap_or_default();
    let (there, here) = (called_in.join(name), repository.join(name));
    if !there.join(ARCHIVE).exists() && here.join(ARCHIVE).exists() {
        here
    } else {
        there
    }
}

/// Whether cargo goes on to link. It does not say which command it serves, and a proof of minutes is not to start for a `cargo check`: so its command line is read.
fn is_to_link() -> bool {
    let words = fs::read(cargo().join("cmdline")).unwrap_or_default();
    let command = words.split(|&byte| byte == 0).skip(1).find_map(|word| match word {
        b"check" | b"c" | b"clippy" | b"doc" | b"d" | b"rustdoc" | b"fix" => Some(false),
        b"build" | b"b" | b"run" | b"r" | b"test" | b"t" | b"bench" | b"install" | b"rustc" => Some(true),
        _ => None,
    });
    command.unwrap_or(true)
}

/// Sees that the archive is there, or has `tools/static-library` make it, or says in a line what to do.
fn provide(folder: &Path, named: bool, repository: &Path) -> Result<(), String> {
    let target = |what: &str| env::var(format!("CARGO_CFG_TARGET_{what}")).unwrap_or_default();
    if (target("ARCH").as_str(), target("OS").as_str()) != ("x86_64", "linux") {
        return Err("the library is x86-64 Linux code: build for the target x86_64-unknown-linux-gnu".into());
    }
    if folder.join(ARCHIVE).exists() {
        return Ok(());
    }
    if named {
        return Err(format!("no {ARCHIVE} in {}, which TUREPAWON_LIB names", folder.display()));
    }
    let place = repository.display();
    if Command::new("rt").arg("version").output().is_err() {
        return Err(format!(
            "no {ARCHIVE}, and no rt: run `tools/static-library` in {place}, or name a folder with {ARCHIVE} by TUREPAWON_LIB"
        ));
    }
    match Command::new(repository.join("tools/static-library")).current_dir(repository).output() {
        Ok(output) if output.status.success() => Ok(()),
        _ => Err(format!("`tools/static-library` failed: run it in {place} and see why")),
    }
}
