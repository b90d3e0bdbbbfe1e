//! Links the proved archive `libestelunya.a`: from the directory that `ESTELUNYA_LIB` names, else from `../../target/staticlib`, where
//! the tools of the gate put it (`rt lib` in crates/estelunya makes it), or, if there is none, from `../../lib`, where `tools/install.sh` puts it and a run of the gate leaves it.
//! A relative directory counts from where cargo was started, else from this crate.
//!
//! Without an archive that fits it warns and names none: what links nothing (`cargo check`, `cargo doc`) goes on, and where a program is linked rustc says that the library is missing.

use std::env;
use std::fs;
use std::path::{Path, PathBuf};

const ARCHIVE: &str = "libestelunya.a";

/// ELF's numbers of machines, beside Rust's names of them.
const MACHINES: [(u16, &str); 2] = [(62, "x86_64"), (183, "aarch64")];

fn main() {
    println!("cargo:rerun-if-env-changed=ESTELUNYA_LIB");
    let directory = directory();
    let archive = directory.join(ARCHIVE);
    println!("cargo:rerun-if-changed={}", archive.display());
    println!("cargo:rustc-link-lib=static=estelunya");
    match unfit(&archive) {
        None => println!("cargo:rustc-link-search=native={}", directory.display()),
        Some(why) => println!("cargo:warning={}", why),
    }
}

/// Why the archive cannot be linked.
fn unfit(archive: &Path) -> Option<String> {
    match fs::read(archive) {
        Ok(bytes) => other_machine(archive, &bytes),
        Err(error) => Some(format!(
            "there is no archive to link with ({}: {}): run tools/install.sh, which proves it and puts it into lib/, or name its directory in ESTELUNYA_LIB",
            archive.display(),
            error
        )),
    }
}

/// By its full path, since programs that use this crate are linked elsewhere.
fn directory() -> PathBuf {
    let manifest = PathBuf::from(env::var_os("CARGO_MANIFEST_DIR").unwrap_or_default());
    let given = match env::var_os("ESTELUNYA_LIB") {
        Some(given) if !given.is_empty() => PathBuf::from(given),
        _ => return beside_crate(&manifest),
    };
    let started = env::var_os("PWD").map_or_else(|| manifest.clone(), PathBuf::from);
    let places = [started.join(&given), manifest.join(&given)];
    let found = places.iter().find(|place| place.join(ARCHIVE).is_file());
    found.unwrap_or(&places[0]).clone()
}

fn beside_crate(manifest: &Path) -> PathBuf {
    let [fresh, kept] = ["../../target/staticlib", "../../lib"].map(|place| manifest.join(place));
    // Either may come or go, and the choice with it.
    for directory in [&fresh, &kept] {
        println!("cargo:rerun-if-changed={}", directory.join(ARCHIVE).display());
    }
    if !fresh.join(ARCHIVE).is_file() && kept.join(ARCHIVE).is_file() {
        kept
    } else {
        fresh
    }
}

/// That the archive is for another machine, before a linker says so in its own words.
fn other_machine(archive: &Path, bytes: &[u8]) -> Option<String> {
    let variable = |name: &str| env::var(name).unwrap_or_default();
    let (machine, system) = (variable("CARGO_CFG_TARGET_ARCH"), variable("CARGO_CFG_TARGET_OS"));
    let made_for = machine_of(bytes).unwrap_or("a machine that is not known here");
    let fits = (made_for, "linux") == (&*machine, &*system);
    (!fits).then(|| {
        format!(
            "{} is made for {} Linux, and this build is for {} {}: tools/install.sh makes it for x86-64 Linux; \
             tools/native.sh estelunya makes one for the machine at hand, for which ESTELUNYA_LIB is to name target/native",
            archive.display(),
            made_for,
            machine,
            system
        )
    })
}

/// The machine of the archive's first object, from the head of its ELF file.
fn machine_of(bytes: &[u8]) -> Option<&'static str> {
    let object = bytes.windows(4).position(|four| four == b"\x7fELF")?;
    let number = u16::from_le_bytes([*bytes.get(object + 18)?, *bytes.get(object + 19)?]);
    MACHINES.iter().find(|(machine, _)| *machine == number).map(|(_, name)| *name)
}
