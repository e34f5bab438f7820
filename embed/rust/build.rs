//! Finds the archives: in the folder that GATEPAST_LIB names, as `lib` of the prefix of embed/install, or where `rt lib` leaves them.

use std::path::{Path, PathBuf};

fn main() {
    println!("cargo:rerun-if-env-changed=GATEPAST_LIB");
    tell_build(&link("gatepast", "fsoe_c"));
    if std::env::var_os("CARGO_FEATURE_CONTROLLER").is_some() {
        link("gatepast_controller", "controller_c");
    }
    if std::env::var_os("CARGO_FEATURE_REPLAY").is_some() {
        link("gatepast_replay", "replay_c");
    }
}

/// Tells packages that depend on this one version and sum of the sources of which the archive is made, and by which
/// compiler: by `DEP_GATEPAST_BUILD` and `DEP_GATEPAST_COMPILER`.
fn tell_build(archive: &Path) {
    let bytes = std::fs::read(archive).unwrap();
    let text = String::from_utf8_lossy(&bytes);
    let sources = text
        .match_indices("gatepast ")
        .map(|(at, _)| text[at..].splitn(5, ' ').take(4).collect::<Vec<_>>())
        .find(|words| words.len() == 4 && words[2] == "sources")
        .map(|words| words.join(" "));
    let compiler = match text.contains("built: backend=rattle ") {
        true => "rattle",
        false => "llvm",
    };
    println!("cargo:build={}", sources.unwrap_or_default());
    println!("cargo:compiler={compiler}");
}

/// Links an archive of this name, or of that of the crate that it is made of, and returns it.
fn link(installed: &str, made_of: &str) -> PathBuf {
    let here = PathBuf::from(std::env::var("CARGO_MANIFEST_DIR").unwrap());
    let folder = match std::env::var("GATEPAST_LIB") {
        Ok(folder) => PathBuf::from(folder),
        Err(_) => here.join("../../crates").join(made_of).join("out"),
    };
    let name = [installed, made_of]
        .into_iter()
        .find(|name| folder.join(format!("lib{name}.a")).is_file())
        .unwrap_or_else(|| {
            panic!(
                "no lib{installed}.a in {}: set GATEPAST_LIB to the whole path of its folder",
                folder.display()
            )
        });
    let archive = folder.join(format!("lib{name}.a"));
    println!("cargo:rustc-link-search=native={}", folder.display());
    println!("cargo:rustc-link-lib=static={name}");
    println!("cargo:rerun-if-changed={}", archive.display());
    archive
}
