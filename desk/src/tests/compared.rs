//! `--compare`: what a delivery changes against another; and what is said of files that are not there.

use std::fs;
use std::path::{Path, PathBuf};

use estelunya_planner::File;

use super::{bits, broken::good, options};
use crate::compare;
use crate::lines::{Delivery, BAHNHOF, BITFELD, ECKDATEN, FPLAN, UMSTEIGB, ZUGART};
use crate::report::{self, Options};

/// A directory of its own, gone at the end.
struct Place(PathBuf);

impl Place {
    fn new(name: &str) -> Place {
        let place = std::env::temp_dir().join(format!("desk-{}-{}", name, std::process::id()));
        fs::create_dir_all(&place).unwrap();
        Place(place)
    }

    fn put(&self, name: &str, delivery: &Delivery) -> PathBuf {
        let directory = self.0.join(name);
        fs::create_dir_all(&directory).unwrap();
        for (file, bytes) in File::ALL.iter().zip(&delivery.files) {
            fs::write(directory.join(file.name()), bytes).unwrap();
        }
        directory
    }
}

impl Drop for Place {
    fn drop(&mut self) {
        fs::remove_dir_all(&self.0).unwrap();
    }
}

fn changed(change: impl FnOnce(&mut [String; 6])) -> Delivery {
    let mut files = good().files.map(|file| String::from_utf8(file).unwrap());
    change(&mut files);
    Delivery { files: files.map(String::into_bytes) }
}

fn compared(name: &str, old: &Delivery, new: &Delivery) -> (i32, String) {
    let place = Place::new(name);
    compare::run(&place.put("old", old), &place.put("new", new), &options())
}

fn at(file: u32) -> usize {
    file as usize - 1
}

#[test]
fn the_same() {
    let (status, text) = compared("same", &good(), &good());
    assert_eq!(status, 0);
    assert!(text.ends_with("to 07.12.2025\ncompare: nothing has changed but the period, if that has\n"), "{}", text);
}

/// The accident: a number that has other days tonight.
#[test]
fn days_changed() {
    let new = changed(|files| files[at(BITFELD)] = files[at(BITFELD)].replace("000010 C86", "000010 D06"));
    let (status, text) = compared("days", &good(), &new);
    let look = "look: bit field 000010 has other days than before (services that mean it: 1); no more on 1 days: 03.12.2025; newly on 1 days: 02.12.2025\n";
    assert!(status == 3 && text.contains(look), "{}", text);
    assert!(text.contains("changed: service 1\n  00043 FERRY_ in days\n"), "{}", text);
}

/// Two numbers that changed places are the accident twice, and no service changes.
#[test]
fn renumbered() {
    let swap = |text: &str| text.replace("000001", "------").replace("000002", "000001").replace("------", "000002");
    let new = changed(|files| {
        files[at(BITFELD)] = swap(&files[at(BITFELD)]);
        files[at(FPLAN)] = swap(&files[at(FPLAN)]);
    });
    let (status, text) = compared("swap", &good(), &new);
    assert!(status == 3 && text.matches("look: bit field 00000").count() == 2, "{}", text);
    assert!(!text.contains("service 1\n"), "{}", text);
}

#[test]
fn went_and_came() {
    let new = changed(|files| {
        files[at(BAHNHOF)] = files[at(BAHNHOF)].replace("Mill\n", "Old Mill\n1000055     Weir\n");
        files[at(UMSTEIGB)] = files[at(UMSTEIGB)].replace("1000022  4 12", "1000022  4 11");
        files[at(ZUGART)] = files[at(ZUGART)].replace("IC   1", "IC   2");
        files[at(BITFELD)].push_str(&(bits("000011", "C06") + "\n"));
        let lines: Vec<&str> = files[at(FPLAN)].lines().collect();
        let kept = [&lines[..17], &lines[22..]].concat().join("\n").replace("00855", "00856");
        files[at(FPLAN)] = kept + "\n";
    });
    let (status, text) = compared("went", &good(), &new);
    assert_eq!(status, 3);
    for line in [
        "look: 3 services, and 4 before: over a tenth went\n",
        "came: bit field 1\n  000011\n",
        "came: stop 1\n  1000055\n",
        "changed: stop 1\n  1000044 is `Old Mill`, and was `Mill`\n",
        "changed: category 1\n  IC  is `2`, and was `1`\n",
        "changed: interchange 1\n  1000022 is `4 11`, and was `4 12`\n",
        "changed: service 1\n  00042 FERRY_ in calls\n",
        "went: service 1\n  00100 NAVIS_ from 1000044 at 01000\n",
    ] {
        assert!(text.contains(line), "{}: {}", line, text);
    }
}

/// Days are compared by date, where both periods have them.
#[test]
fn another_period() {
    let old = changed(|files| {
        files[at(ECKDATEN)] = "30.11.2025\n06.12.2025\nThe week before\n".to_string();
        // the same dates, a day later in the field
        files[at(BITFELD)] =
            [bits("000001", "DF6"), bits("000002", "E0E"), bits("000010", "C46"), String::new()].join("\n");
    });
    let (status, text) = compared("period", &old, &good());
    assert!(
        text.contains("compare: the period is 01.12.2025 to 07.12.2025, and was 30.11.2025 to 06.12.2025; "),
        "{}",
        text
    );
    assert!(status == 0 && text.ends_with("compare: nothing has changed but the period, if that has\n"), "{}", text);
}

#[test]
fn refused_and_unread() {
    let broken = changed(|files| files[at(FPLAN)].insert(0, '*'));
    let (status, text) = compared("new-refused", &good(), &broken);
    assert!(status == 1 && text.starts_with("refused 12 file 5 line 1"), "{}", text);
    let (status, text) = compared("old-refused", &broken, &good());
    assert!(status == 2 && text.ends_with("is refused, so that nothing can be compared with it\n"), "{}", text);
    let (status, text) = compare::run(Path::new("none"), Path::new("none"), &options());
    assert!(status == 2 && text.ends_with("compare: none cannot be read\n"), "{}", text);
}

#[test]
fn as_an_object() {
    let place = Place::new("object");
    let new = changed(|files| files[at(BITFELD)] = files[at(BITFELD)].replace("000010 C86", "000010 D06"));
    let sides = [place.put("old", &good()), place.put("new", &new)];
    let (status, said) = compare::run(&sides[0], &sides[1], &Options { json: true, ..options() });
    assert_eq!(status, 3);
    assert!(said.contains("\"accidents\":[\"bit field 000010 has other days"), "{}", said);
    assert!(
        said.contains("{\"what\":\"service\",\"how\":\"changed\",\"name\":\"00043 FERRY_\",\"says\":\"in days\"}"),
        "{}",
        said
    );
}

/// All files that are missing at once, what stands in their place, and what ZUGART must have.
#[test]
fn missing_files() {
    let place = Place::new("missing");
    let directory = place.put("week", &good());
    fs::rename(directory.join("ECKDATEN"), directory.join("eckdaten")).unwrap();
    fs::rename(directory.join("BITFELD"), directory.join("BITFELD.txt")).unwrap();
    fs::remove_file(directory.join("ZUGART")).unwrap();
    fs::create_dir(directory.join("ZUGART")).unwrap();
    let (status, text) = report::run(&directory, &options());
    assert!(status == 2 && text.starts_with("unread file 1\nECKDATEN: "), "{}", text);
    for line in [
        "\nBITFELD: ",
        "/ZUGART: it is no file\n",
        "look: `eckdaten` is there: names are capitals, ECKDATEN\n",
        "look: `BITFELD.txt` is there: names have nothing behind them, BITFELD\n",
        "look: ZUGART has a line for each category of a *G line: ",
        "look: FPLAN has `BAT`, `IC `, `NAV`; ",
        "look:   BAT NN   0 BAT      0\n",
    ] {
        assert!(text.contains(line), "{}: {}", line, text);
    }
    // the line that is shown is good, with a class
    assert_eq!(crate::form::offences(ZUGART, b"BAT  4   0 BAT      0"), []);
}
