//! Names the folder of `libfstch.a` to the linker.

use std::path::{Path, PathBuf};
use std::{env, fs, process};

const VARIABLE: &str = "FSTCH_LIB_DIR";
const ARCHIVE: &str = "libfstch.a";

/// The folder that the variable names, or that of the repository where `./build-library` leaves the library.
fn folder() -> PathBuf {
    match env::var_os(VARIABLE) {
        Some(folder) => PathBuf::from(folder),
        None => PathBuf::from(env::var_os("CARGO_MANIFEST_DIR").unwrap_or_default()).join("../../out"),
    }
}

/// The number of an interface that can take the place of this crate's: all but the patch.
fn minor_version() -> Option<u32> {
    let number = |name| env::var(name).ok()?.parse::<u32>().ok();
    Some(number("CARGO_PKG_VERSION_MAJOR")? * 100 + number("CARGO_PKG_VERSION_MINOR")?)
}

/// Whether the header beside the library, where there is one, is of another version than this crate.
fn is_of_another_version(folder: &Path) -> bool {
    let header = fs::read_to_string(folder.join("fstch.h")).unwrap_or_default();
    let mut numbers = header.lines().filter_map(|line| line.strip_prefix("#define FSTCH_VERSION "));
    let found = numbers.next().and_then(|number| number.trim().parse::<u32>().ok());
    found.map_or(false, |number| Some(number / 100) != minor_version())
}

/// The folder in the words of cargo, or why it can't be linked with.
fn found() -> Result<String, String> {
    let folder = folder();
    let shown = folder.display();
    if !folder.join(ARCHIVE).is_file() {
        return Err(format!(
            "there is no {ARCHIVE} in {shown}: ./build-library makes it in out/ of the repository, and {VARIABLE} may \
             name another folder"
        ));
    }
    if is_of_another_version(&folder) {
        return Err(format!(
            "the library in {shown} is of another version than this crate, {}: ./build-library makes the one that fits",
            env!("CARGO_PKG_VERSION")
        ));
    }
    let whole = fs::canonicalize(&folder).map_err(|why| format!("{shown}: {why}"))?;
    whole.to_str().map(str::to_owned).ok_or_else(|| format!("the name of {shown} isn't UTF-8, which cargo needs"))
}

fn main() {
    println!("cargo:rerun-if-env-changed={VARIABLE}");
    match found() {
        Ok(folder) => {
            println!("cargo:rerun-if-changed={folder}/{ARCHIVE}");
            println!("cargo:rerun-if-changed=build.rs");
            println!("cargo:rustc-link-search=native={folder}");
            println!("cargo:rustc-link-lib=static=fstch");
        }
        Err(why) => {
            eprintln!("{why}");
            process::exit(1);
        }
    }
}
