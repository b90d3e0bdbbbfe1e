//! The functions of the proved archive `libestelunya.a` as they are ([`raw`]), and the layout of the words that they write ([`layout`]). Nothing here is safe:
//! `estelunya-planner` is.
//!
//! With cargo, `build.rs` links the archive: the one in the directory that the environment variable `ESTELUNYA_LIB` names, else the one that the tools of the gate have put into
//! `target/staticlib`, or, if there is none, the one in `lib/`, where `tools/install.sh` puts it. Where there is none at all, or none for this machine, it warns: `cargo check` and `cargo doc` work, and a
//! program does not link. Without cargo, rustc takes it in by `-L DIRECTORY -l static=estelunya`; `tools/archive.sh` gives these flags.

#![warn(missing_docs)]

#[cfg(not(target_pointer_width = "64"))]
compile_error!("libestelunya.a is made for targets of 64 bits");

pub mod layout;
// As tools/boundary.sh writes it.
#[rustfmt::skip]
pub mod raw;
