//! The archive and this crate are of one version, or nothing is asked.

use std::sync::atomic::{AtomicBool, Ordering};

use crate::raw;

static COMPARED: AtomicBool = AtomicBool::new(false);

/// Compares the versions, the first time that it is called.
///
/// # Panics
///
/// If they differ; then every further time too.
pub(crate) fn compared() {
    // Two threads may both be the first: they see the same.
    if !COMPARED.load(Ordering::Relaxed) {
        // SAFETY: nothing is given.
        compare(unsafe { raw::estelunya_version() });
        COMPARED.store(true, Ordering::Relaxed);
    }
}

fn compare(archive: u32) {
    assert!(
        archive == raw::VERSION,
        "the linked libestelunya.a has version {} of the boundary (estelunya_version, not the version of the crate), and this crate was written for version {}: build with the archive and the crate of one release",
        archive,
        raw::VERSION
    );
}

#[cfg(test)]
mod tests {
    use super::{compare, compared};
    use crate::raw::VERSION;

    #[test]
    fn same() {
        compared();
        compared();
        compare(VERSION);
    }

    #[test]
    #[should_panic(
        expected = "has version 3 of the boundary (estelunya_version, not the version of the crate), and this crate was written for version 2"
    )]
    fn later() {
        compare(3);
    }

    #[test]
    #[should_panic(
        expected = "has version 1 of the boundary (estelunya_version, not the version of the crate), and this crate was written for version 2"
    )]
    fn earlier() {
        compare(1);
    }
}
