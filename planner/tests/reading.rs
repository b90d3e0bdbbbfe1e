//! What stands in a directory under a file's name: only files are read, and of one that is too long no more than shows it. And memory that is not there.

use std::fs;
use std::os::unix::fs::symlink;
use std::path::{Path, PathBuf};
use std::process::Command;

use estelunya_planner::{File, Files, LoadError, Offence, ReadError, Timetable};

/// A copy of the sample delivery, removed when it is dropped.
struct Delivery(PathBuf);

impl Delivery {
    fn new(name: &str) -> Delivery {
        let place = std::env::temp_dir().join(format!("estelunya-reading-{}-{}", name, std::process::id()));
        fs::create_dir_all(&place).unwrap();
        let sample = Path::new(option_env!("CARGO_MANIFEST_DIR").unwrap_or("planner")).join("../crates/ferry/data");
        for file in File::ALL {
            fs::copy(sample.join(file.name()), place.join(file.name())).unwrap();
        }
        Delivery(place)
    }

    /// The place of a file, which is taken away.
    fn without(&self, file: File) -> PathBuf {
        let path = self.0.join(file.name());
        fs::remove_file(&path).unwrap();
        path
    }

    fn unread(&self) -> (File, String) {
        match Timetable::read(&self.0) {
            Err(ReadError::Unread { file, error, .. }) => (file, error.to_string()),
            other => panic!("{:?}", other),
        }
    }
}

impl Drop for Delivery {
    fn drop(&mut self) {
        fs::remove_dir_all(&self.0).ok();
    }
}

#[test]
fn no_such_file() {
    match Timetable::read("no such directory") {
        Err(error @ ReadError::Unread { file: File::Eckdaten, .. }) => {
            assert!(error.to_string().starts_with("unread file 1: no such directory/ECKDATEN: "), "{}", error);
        }
        other => panic!("{:?}", other),
    }
}

/// A pipe without a writer would wait for ever, and a device would give bytes for ever.
#[test]
fn no_file() {
    let why = "it is no file, but a directory, a pipe or a device".to_string();
    let delivery = Delivery::new("none");
    fs::create_dir(delivery.without(File::Zugart)).unwrap();
    assert_eq!(delivery.unread(), (File::Zugart, why.clone()));
    symlink("/dev/zero", delivery.without(File::Fplan)).unwrap();
    assert_eq!(delivery.unread(), (File::Fplan, why.clone()));
    let pipe = delivery.without(File::Bahnhof);
    if Command::new("mkfifo").arg(&pipe).status().map_or(false, |status| status.success()) {
        assert_eq!(delivery.unread(), (File::Bahnhof, why));
    }
}

/// A file of a tebibyte, of which there are no bytes on the disk: 16 MiB and one byte are read, and the load refuses it.
#[test]
fn too_long() {
    let delivery = Delivery::new("long");
    let path = delivery.without(File::Umsteigb);
    for length in [16_777_217, 1 << 40] {
        fs::File::create(&path).and_then(|file| file.set_len(length)).unwrap();
        match Timetable::read(&delivery.0) {
            Err(ReadError::Refused(refusal)) => {
                assert_eq!((refusal.offence, refusal.file), (Offence::FileTooLong, Some(File::Umsteigb)));
            }
            other => panic!("{:?}", other),
        }
    }
}

/// Under a bound of 300 MB a load that needs 805 MB of helper words says so, and nothing aborts.
#[test]
fn no_memory() {
    let own = std::env::current_exe().unwrap();
    let child = Command::new("sh")
        .args(["-c", "ulimit -v 300000 && exec \"$0\" --exact --ignored in_little_memory"])
        .arg(own)
        .output()
        .unwrap();
    let said = String::from_utf8_lossy(&child.stdout);
    // a program for another machine than this one cannot be started so
    if said.contains("running 1 test") {
        assert!(child.status.success(), "{}{}", said, String::from_utf8_lossy(&child.stderr));
    }
}

#[test]
#[ignore = "started by no_memory, in a process of its own"]
fn in_little_memory() {
    let lines = vec![b'\n'; 16_777_216];
    let files = Files { eckdaten: b"", bitfeld: &lines, bahnhof: &lines, umsteigb: &lines, fplan: b"", zugart: b"" };
    match Timetable::load(&files) {
        Err(LoadError::NoMemory(none)) => {
            assert_eq!(none.to_string(), "no memory: 805306624 bytes are needed at once");
        }
        other => panic!("{:?}", other),
    }
}
