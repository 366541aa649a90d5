//! Finds libslots.a, the archive that `./build-lib` makes, and tells cargo to link it.
//!
//! SLOTS_LIB names the folder that has it. Where it is not set, that is the repository's `build` for
//! x86-64 and `build/native` for other machines, seen from this package and not from the working
//! folder. (`./build-lib` makes the one for x86-64 alone.) Every doubt about the archive ends the build here, where the message can say what to do.

use std::env::{self, VarError};
use std::fs;
use std::path::{Path, PathBuf};

fn main() {
    println!("cargo:rerun-if-env-changed=SLOTS_LIB");
    let machine = env::var("CARGO_CFG_TARGET_ARCH").expect("cargo sets CARGO_CFG_TARGET_ARCH");
    let folder = match env::var("SLOTS_LIB") {
        Ok(folder) => given(folder),
        Err(VarError::NotPresent) => usual(&machine),
        Err(VarError::NotUnicode(_)) => panic!("SLOTS_LIB is not Unicode text"),
    };
    let archive = folder.join("libslots.a");
    println!("cargo:rerun-if-changed={}", archive.display());
    check(&archive, &machine);
    println!("cargo:rustc-link-search=native={}", folder.display());
    println!("cargo:rustc-link-lib=static=slots");
}

/// The folder that SLOTS_LIB names. Cargo runs this program in the package's folder, so a relative
/// path would not mean what it meant where it was typed.
fn given(folder: String) -> PathBuf {
    let folder = PathBuf::from(folder);
    if folder.is_relative() {
        panic!("SLOTS_LIB must be an absolute path, and is \"{}\"", folder.display());
    }
    folder
}

/// The folder that `./build-lib` writes to for this machine.
fn usual(machine: &str) -> PathBuf {
    let package = env::var("CARGO_MANIFEST_DIR").expect("cargo sets CARGO_MANIFEST_DIR");
    let repository = Path::new(&package).join("../..").canonicalize().expect("the package lies in the repository");
    match machine {
        "x86_64" => repository.join("build"),
        _ => repository.join("build/native"),
    }
}

/// Panics where there is no archive, or where it is known to be for another machine. The linker would
/// only speak of a wrong format.
fn check(archive: &Path, machine: &str) {
    let bytes = fs::read(archive).unwrap_or_else(|error| {
        panic!(
            "{}: {error}. Run ./build-lib in the repository first, \
             or name the folder that has libslots.a in SLOTS_LIB",
            archive.display()
        )
    });
    if let (Some(wanted), Some(found)) = (code_of(machine), code_in(&bytes)) {
        if wanted != found {
            panic!(
                "{} was made for another machine than {machine}. ./build-lib writes the one \
                 for x86-64 to build, and makes none for other machines",
                archive.display()
            );
        }
    }
}

/// How ELF numbers the machines that the archive is made for so far; of others nothing is checked.
fn code_of(machine: &str) -> Option<u16> {
    match machine {
        "x86_64" => Some(62),
        "aarch64" => Some(183),
        _ => None,
    }
}

/// The number of the machine in the first ELF object of an archive: two bytes, the lower first,
/// that stand 18 bytes behind the object's beginning.
fn code_in(archive: &[u8]) -> Option<u16> {
    let object = archive.windows(4).position(|four| four == b"\x7fELF")?;
    let code = archive.get(object + 18..object + 20)?;
    Some(u16::from_le_bytes([code[0], code[1]]))
}
