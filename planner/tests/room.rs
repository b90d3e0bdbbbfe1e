//! Room known beforehand: so many words are enough for files of so many bytes, and one load does.

mod trial_week;

use estelunya_planner::by_number::{load, room, Lengths, Table};
use estelunya_planner::layout::{
    BIT_FIELD_WORDS, CALL_WORDS, CATEGORY_WORDS, CLASS_WORDS, DAYS_WORDS, EXTRA_WORDS, HEADER_WORDS, INTERCHANGE_WORDS,
    SERVICE_WORDS, STOP_WORDS,
};
use estelunya_planner::{raw, Files, Timetable};
use trial_week::TRIAL_WEEK;

const MOST_BYTES: usize = 16_777_216;

/// A right delivery with as little as there can be: one interchange record.
const LEAST: Files<'static> = Files {
    eckdaten: b"01.12.2025\n07.12.2025\nLeast\n",
    bitfeld: b"",
    bahnhof: b"",
    umsteigb: b"9999999  2  3",
    fplan: b"",
    zugart: b"",
};

/// Loads with exactly as many words as are enough; gives how many are used, which a load by the crate keeps.
fn used(files: &Files<'_>) -> usize {
    let mut words = vec![7; room(files)];
    let used = load(files, &mut words).unwrap_or_else(|refusal| panic!("{}", refusal)).words as usize;
    assert!(words[used..].iter().all(|word| *word == 7), "words after the table's own");
    let timetable = Timetable::load(files).unwrap();
    assert!(timetable.by_number().words() == &words[..used], "the words that the timetable keeps");
    used
}

/// These lines, the last without LF: no file of so many bytes has more of them.
fn file(lines: impl Iterator<Item = String>) -> Vec<u8> {
    lines.collect::<Vec<_>>().join("\n").into_bytes()
}

fn bit_fields(count: usize) -> Vec<u8> {
    file((1..=count).map(|number| format!("{:06} FE6{:093}", number, 0)))
}

/// Numbers of stops: none ends in 00000.
fn stop_numbers(count: usize) -> impl Iterator<Item = u32> {
    (1_000_001..).filter(|number| number % 100_000 != 0).take(count)
}

fn stops(count: usize) -> Vec<u8> {
    file(stop_numbers(count).map(|number| format!("{}     A", number)))
}

/// That of every stop, then those of the stops.
fn interchanges(count: usize) -> Vec<u8> {
    let own = stop_numbers(count - 1).map(|number| format!("{}  2  3", number));
    file(std::iter::once("9999999  2  3".to_string()).chain(own))
}

/// Codes of three letters.
fn categories(count: usize) -> Vec<u8> {
    let letter = |number: usize| char::from(b'A' + (number % 26) as u8);
    file((0..count).map(|n| format!("{}{}{}  4   0 BAT      0", letter(n), letter(n / 26), letter(n / 676))))
}

/// A line of FPLAN of 59 bytes.
fn line(text: &str) -> String {
    format!("{:58}%", text)
}

/// Services of two calls, and so many other *A each.
fn services(count: usize, extras: usize) -> Vec<u8> {
    let one = |number: usize| {
        let head = [format!("*Z {:05} FERRY_", number), "*G AAA".to_string(), "*A VE".to_string()];
        let calls = ["1000001                              00800", "1000002                       00810"];
        let extras = (0..extras).map(|_| "*A BR".to_string());
        let texts = head.iter().cloned().chain(extras).chain(calls.iter().map(|text| text.to_string()));
        texts.map(|text| line(&text)).collect::<Vec<_>>()
    };
    file((0..count).flat_map(one))
}

#[test]
fn trial_week() {
    assert_eq!(used(&TRIAL_WEEK), 82);
}

/// Document 01's shortest lines, of each kind: 103 bytes of BITFELD, 13 of BAHNHOF, 13 of UMSTEIGB, 21 of ZUGART.
#[test]
fn shortest_lines() {
    let least = HEADER_WORDS + INTERCHANGE_WORDS;
    assert_eq!((used(&LEAST), room(&LEAST)), (least, least));
    for count in [1, 2, 102, 103, 104, 500] {
        let (bitfeld, bahnhof, zugart) = (bit_fields(count), stops(count), categories(count));
        assert_eq!((bitfeld.len(), bahnhof.len(), zugart.len()), (104 * count - 1, 14 * count - 1, 22 * count - 1));
        assert_eq!(used(&Files { bitfeld: &bitfeld, ..LEAST }), least + BIT_FIELD_WORDS * count);
        assert_eq!(used(&Files { bahnhof: &bahnhof, ..LEAST }), least + STOP_WORDS * count);
        assert_eq!(used(&Files { zugart: &zugart, ..LEAST }), least + CLASS_WORDS * count);
        let umsteigb = interchanges(count);
        assert_eq!(umsteigb.len(), 14 * count - 1);
        let files = Files { bahnhof: &bahnhof, umsteigb: &umsteigb, ..LEAST };
        assert_eq!(used(&files), HEADER_WORDS + (STOP_WORDS + INTERCHANGE_WORDS) * count);
    }
    // One line without LF: not a word is left.
    let (bitfeld, bahnhof, zugart) = (bit_fields(1), stops(1), categories(1));
    let files = Files { bitfeld: &bitfeld, bahnhof: &bahnhof, zugart: &zugart, ..LEAST };
    assert_eq!(used(&files), room(&files));
}

/// Services of two calls in lines of 59 bytes, without text behind the "%"; with further *A lines too.
#[test]
fn shortest_services() {
    let (bahnhof, zugart) = (stops(2), categories(1));
    let before = HEADER_WORDS + 2 * STOP_WORDS + INTERCHANGE_WORDS + CLASS_WORDS;
    for (count, extras) in [(1, 0), (2, 0), (59, 0), (400, 0), (1, 100), (3, 7)] {
        let fplan = services(count, extras);
        assert_eq!(fplan.len(), 60 * (5 + extras) * count - 1);
        let each = SERVICE_WORDS + 2 * CALL_WORDS + CATEGORY_WORDS + DAYS_WORDS + EXTRA_WORDS * extras;
        let files = Files { bahnhof: &bahnhof, fplan: &fplan, zugart: &zugart, ..LEAST };
        assert_eq!(used(&files), before + each * count);
    }
}

/// A file of 16 MiB of the shortest lines, and one byte more, which is refused and needs no more words.
#[test]
fn longest_file() {
    let count = (MOST_BYTES + 1) / 14;
    let bahnhof = stops(count);
    assert!(bahnhof.len() <= MOST_BYTES && bahnhof.len() + 14 > MOST_BYTES);
    let files = Files { bahnhof: &bahnhof, ..LEAST };
    assert_eq!(used(&files), HEADER_WORDS + STOP_WORDS * count + INTERCHANGE_WORDS);
    let (longest, longer) = (vec![b' '; MOST_BYTES], vec![b' '; MOST_BYTES + 1]);
    assert_eq!(room(&Files { bahnhof: &longest, ..LEAST }), room(&Files { bahnhof: &longer, ..LEAST }));
}

/// Any sizes may be asked; a longer file has no more words than the longest.
#[test]
fn any_sizes() {
    // SAFETY: only numbers are given, here and below.
    let room = |a, b, c, d, e| unsafe { raw::estelunya_room(a, b, c, d, e) };
    assert_eq!(room(0, 0, 0, 0, 0), HEADER_WORDS);
    assert_eq!((room(102, 0, 0, 0, 0), room(103, 0, 0, 0, 0)), (HEADER_WORDS + 12, HEADER_WORDS + 13));
    assert_eq!((room(0, 12, 0, 0, 0), room(0, 13, 0, 0, 0)), (HEADER_WORDS + 2, HEADER_WORDS + 3));
    assert_eq!((room(0, 0, 12, 0, 0), room(0, 0, 13, 0, 0)), (HEADER_WORDS + 2, HEADER_WORDS + 3));
    assert_eq!((room(0, 0, 0, 58, 0), room(0, 0, 0, 59, 0)), (HEADER_WORDS + 7, HEADER_WORDS + 8));
    assert_eq!((room(0, 0, 0, 0, 20), room(0, 0, 0, 0, 21)), (HEADER_WORDS + 1, HEADER_WORDS + 2));
    let most = 9 + 2_117_512 + 3_871_665 + 3_871_665 + 2_274_876 + 1_597_830;
    for size in [MOST_BYTES, MOST_BYTES + 1, 1 << 32, 1 << 63, usize::MAX] {
        assert_eq!(room(size, size, size, size, size), most);
        let lengths = Lengths { bitfeld: size, bahnhof: size, umsteigb: size, fplan: size, zugart: size };
        assert_eq!(Timetable::room_for(&lengths), most);
    }
}

/// Words that were lent and are not used are no part of the table.
#[test]
fn asked_with_all_words() {
    let mut words = vec![7; room(&TRIAL_WEEK) + 100];
    load(&TRIAL_WEEK, &mut words).unwrap();
    assert_eq!((Table::new(&words).services(), Table::new(&words).stops()), (1, 3));
}
