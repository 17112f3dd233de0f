//! Where a build script finds an archive that `tools/staticlib` writes, and how it links it.

use std::path::{Path, PathBuf};
use std::process::{exit, Command};
use std::{env, fs};

/// The archive of a crate: the first of these files in the folder that `variable` names, or else in `target/staticlib` of the repository.
/// Where none is there, the build ends with a message that says what to do.
pub fn archive(name: &str, files: &[&str], variable: &str) -> PathBuf {
    let usual = Path::new(env!("CARGO_MANIFEST_DIR")).join("../../target/staticlib");
    let folder = env::var_os(variable).map_or(usual, PathBuf::from);
    let found = files.iter().map(|file| folder.join(file)).find(|path| path.is_file());
    let Some(archive) = found else {
        end(&missing(name, files, &plain(&folder), variable));
    };
    println!("cargo:rerun-if-env-changed={variable}");
    println!("cargo:rerun-if-changed={}", archive.display());
    archive
}

/// Links a copy of an archive under a name. Where binutils are at hand, each of its functions begins at a multiple of 64 bytes: then a
/// loop's time doesn't hang on what else stands in the program.
pub fn link(archive: &Path, name: &str) {
    let tool = Path::new(env!("CARGO_MANIFEST_DIR")).join("../tools/aligned_archive.sh");
    let out = out_folder();
    let linked = out.join(format!("lib{name}.a"));

    let aligned = Command::new(&tool).arg(archive).arg(&linked).status();
    if !aligned.is_ok_and(|status| status.success()) {
        if let Err(error) = fs::copy(archive, &linked) {
            end(&format!("{} can't be copied: {error}", archive.display()));
        }
    }
    println!("cargo:rustc-link-search=native={}", out.display());
    println!("cargo:rustc-link-lib=static={name}");
    println!("cargo:rerun-if-changed={}", tool.display());
}

/// Links an earlier archive too, in the same way, where `NAME_BEFORE` names one (an absolute path): its functions, which are named `name_`
/// and one of these, are named `before_` there, and `name_before` is set.
pub fn link_before(name: &str, functions: &[&str]) {
    let variable = format!("{}_BEFORE", name.to_uppercase());
    println!("cargo:rustc-check-cfg=cfg({name}_before)");
    println!("cargo:rerun-if-env-changed={variable}");
    if let Some(before) = env::var_os(&variable).map(PathBuf::from) {
        println!("cargo:rerun-if-changed={}", before.display());
        let Some(renamed) = renamed(&before, name, functions) else {
            let before = before.display();
            end(&format!("{variable}: objcopy can't rename the functions of {before}."));
        };
        link(&renamed, &format!("{name}_before"));
        println!("cargo:rustc-cfg={name}_before");
    }
}

/// A copy of an archive whose functions are named `before_` and not `name_`.
fn renamed(archive: &Path, name: &str, functions: &[&str]) -> Option<PathBuf> {
    let copy = out_folder().join("before.a");
    let names = functions
        .iter()
        .map(|function| format!("--redefine-sym={name}_{function}=before_{function}"));
    let status = Command::new("objcopy").args(names).arg(archive).arg(&copy).status();
    status.is_ok_and(|status| status.success()).then_some(copy)
}

/// The folder for what a build script writes.
fn out_folder() -> PathBuf {
    PathBuf::from(env::var_os("OUT_DIR").expect("cargo sets OUT_DIR"))
}

/// Ends the build with a message and nothing more.
fn end(message: &str) -> ! {
    eprintln!("{message}");
    exit(1)
}

fn missing(name: &str, files: &[&str], folder: &Path, variable: &str) -> String {
    format!(
        "The proved archive isn't there: {} was looked for in {}.\nRun `make`, or `tools/staticlib {name}`, in the repository's root; or \
         name the folder that has it in {variable}.",
        files.join(" or "),
        folder.display()
    )
}

/// A path without `..`, whether its folders are there or not.
fn plain(path: &Path) -> PathBuf {
    let mut plain = PathBuf::new();
    for part in path.components() {
        if part.as_os_str() == ".." {
            plain.pop();
        } else {
            plain.push(part);
        }
    }
    plain
}
