//! The names of stops (document 02, No. 3): the standard's examples, each clause of the list's form, and bytes and words from elsewhere.

use std::thread::Builder;

use estelunya_planner::by_number::{load, Table};
use estelunya_planner::layout::{HEADER_WORDS, STOP_WORDS};
use estelunya_planner::{File, Files, LoadRefusal, Offence, Refusal};

/// Any language, or any type.
const ANY: u32 = 0;
const GERMAN: u32 = b'd' as u32;
const DUTCH: u32 = b'n' as u32;

fn loaded(bahnhof: &[u8]) -> Result<Vec<u32>, LoadRefusal> {
    let files = Files {
        eckdaten: b"01.12.2025\n07.12.2025\nNames\n",
        bitfeld: b"",
        bahnhof,
        umsteigb: b"9999999  2  3\n",
        fplan: b"",
        zugart: b"",
    };
    let mut words = vec![0; 100];
    let loaded = load(&files, &mut words)?;
    words.truncate(loaded.words as usize);
    Ok(words)
}

/// A refusal's number, file, line and column.
type Refused = (u32, Option<File>, u32, usize);

/// BAHNHOF and table of a stop 1000011 with this name field.
fn stop_with(field: &str) -> Result<(Vec<u8>, Vec<u32>), Refused> {
    let bahnhof = format!("1000011     {}\n", field).into_bytes();
    match loaded(&bahnhof) {
        Ok(words) => Ok((bahnhof, words)),
        Err(refusal) => Err((refusal.offence.number(), refusal.file, refusal.line, refusal.column)),
    }
}

/// The name of that stop that a letter and a type ask for, 0 for any.
fn name_in(field: &str, letter: char, kind: u32) -> String {
    let (bahnhof, words) = stop_with(field).unwrap();
    let language = if letter == '0' { ANY } else { letter as u32 };
    let name = Table::new(&words).stop(1_000_011, &bahnhof).name(language, kind).unwrap();
    String::from_utf8(name.to_vec()).unwrap()
}

/// 5.1's printed stops; the second has 52 bytes, of which the last two stand outside the field.
#[test]
fn printed() {
    let brussels = "Bruxelles-Nord$Brussel Nord$<d>$Brussel Noord$<n>";
    assert_eq!(
        ["d", "n", "f", "e"].map(|letter| name_in(brussels, letter.chars().next().unwrap(), 0)),
        ["Brussel Nord", "Brussel Noord", "Bruxelles-Nord", "Bruxelles-Nord"]
    );
    assert_eq!(stop_with("Louvain [B]$<f>$Leuven [B]$<n>$Louvain$<f2>Louv$<f1>"), Err((39, Some(File::Bahnhof), 1, 0)));
    let louvain = "Louvain [B]$<f>Leuven [B]$<n>Louvain$<f2>Louv$<f1>";
    assert_eq!(
        [('f', 0), ('f', 1), ('n', 1), ('d', 2)].map(|(letter, kind)| name_in(louvain, letter, kind)),
        ["Louvain [B]", "Louvain [B]", "Leuven [B]", "Louvain [B]"]
    );
    let letters = "AAAA$<d12><f23>$BBBB$<e1><f1>";
    let asked =
        [('d', 1), ('d', 2), ('f', 2), ('f', 3), ('f', 1), ('e', 1), ('e', 0), ('f', 0), ('0', 1), ('d', 3), ('n', 0)];
    assert_eq!(
        asked.map(|(letter, kind)| name_in(letters, letter, kind)),
        ["AAAA", "AAAA", "AAAA", "AAAA", "BBBB", "BBBB", "BBBB", "AAAA", "AAAA", "AAAA", "AAAA"]
    );
    let types = "CCCC$<12>$DDDD$<34>";
    let asked = [('0', 1), ('d', 2), ('0', 3), ('n', 4), ('d', 0), ('0', 5)];
    assert_eq!(
        asked.map(|(letter, kind)| name_in(types, letter, kind)),
        ["CCCC", "CCCC", "DDDD", "DDDD", "CCCC", "CCCC"]
    );
}

/// What is a list, and what is none.
#[test]
fn lists() {
    for right in [
        "A",
        "A$B",
        "A$ $B",
        "A$<d>",
        "A$<d>B",
        "A$<d>$B",
        "A$<d><e>",
        "A$<1>",
        "A$<dd11>",
        "A$<dehijnopstuwx123456789>",
    ] {
        assert!(stop_with(right).is_ok(), "{}", right);
    }
    for wrong in [
        "$", "A$", "$A", "A$$B", "<", ">", "A<d>", "A>", "A$<d>$", "A$<d>$<e>", "A$<>", "A$<1d>", "A$<d", "A$<0>",
        "A$<a>", "A$<D>", "A$<d e>", "A$<d>>", "A$<<d>>", "<d>", "$<d>", "A$<d>$$B", "A$<d$>", "A$<d1e>",
    ] {
        assert_eq!(stop_with(wrong), Err((39, Some(File::Bahnhof), 1, 0)), "{}", wrong);
    }
    let refusal = loaded(b"1000011     A$<>\n").unwrap_err();
    assert_eq!(refusal.offence, Offence::NameList);
    assert!(refusal.to_string().starts_with("refused 39 file 3 line 1 column 0: BAHNHOF: "));
}

/// "39 after 4": before 7 and 6.
#[test]
fn order() {
    let number =
        |bahnhof: &[u8]| loaded(bahnhof).map_err(|refusal| (refusal.offence.number(), refusal.line)).unwrap_err();
    assert_eq!(number(b"1000011 x  xA$\n"), (4, 1));
    assert_eq!(number(b"9999999     A$\n"), (39, 1));
    assert_eq!(number(b"1000011     A\n1000011     A$\n"), (39, 2));
    assert_eq!(number(b"9999999     A\n"), (7, 1));
}

/// 21, 40, 27, 41, 39, in this order.
#[test]
fn refused() {
    let (bahnhof, words) = stop_with("Genf$<d>$Geneva$<e>").unwrap();
    let asked = |words: &[u32], bytes: &[u8], stop, language, kind| {
        Table::new(words).stop(stop, bytes).name(language, kind).map(<[u8]>::to_vec)
    };
    let d = u32::from(b'd');
    assert_eq!(asked(&words, &bahnhof, 1_000_011, u32::from(b'e'), 9), Ok(b"Geneva".to_vec()));
    assert_eq!(asked(&words[1..], b"", 1, 1, 10), Err(Refusal::NotATable));
    for language in [1, 9, u32::from(b'a'), u32::from(b'D'), u32::from(b'g'), 256 + d, u32::MAX] {
        assert_eq!(asked(&words, b"", 1, language, 0), Err(Refusal::NoSuchLanguageOrType));
    }
    for kind in [10, u32::from(b'1'), u32::MAX] {
        assert_eq!(asked(&words, b"", 1, d, kind), Err(Refusal::NoSuchLanguageOrType));
    }
    assert_eq!(asked(&words, b"", 1, d, 9), Err(Refusal::StopUnknown));
    let end = bahnhof.len() - 1;
    assert_eq!(asked(&words, &bahnhof[..end], 1_000_011, d, 0), Ok(b"Genf".to_vec()));
    assert_eq!(asked(&words, &bahnhof[..end - 1], 1_000_011, d, 0), Err(Refusal::NameOutside));
    assert_eq!(asked(&words, b"", 1_000_011, d, 0), Err(Refusal::NameOutside));
    let mut other = bahnhof.clone();
    other[end - 1] = b'$';
    assert_eq!(asked(&words, &other, 1_000_011, d, 0), Err(Refusal::NameList));
    let numbers = [Refusal::NoSuchLanguageOrType, Refusal::NameOutside, Refusal::NameList].map(Refusal::number);
    assert_eq!(numbers, [40, 41, 39]);
}

/// The words of a table whose only stop claims a name field of this place and length.
fn claiming(place: u32, length: u32) -> Vec<u32> {
    let mut words = stop_with("A").unwrap().1;
    words[HEADER_WORDS..HEADER_WORDS + STOP_WORDS].copy_from_slice(&[1_000_011, place, length]);
    words
}

/// Place and length are added exactly: 2^32 - 1 and one more are not inside.
#[test]
fn far_places() {
    for (place, length) in [(u32::MAX, 1), (1, u32::MAX), (u32::MAX, u32::MAX), (4, 0), (3, 1), (0, 4)] {
        let words = claiming(place, length);
        assert_eq!(Table::new(&words).stop(1_000_011, b"A$B").name(ANY, ANY), Err(Refusal::NameOutside));
    }
    let words = claiming(3, 0);
    assert_eq!(Table::new(&words).stop(1_000_011, b"A$B").name(ANY, ANY), Err(Refusal::NameList));
    let words = claiming(2, 1);
    assert_eq!(Table::new(&words).stop(1_000_011, b"A$B").name(ANY, ANY), Ok(&b"B"[..]));
}

const STACK_BYTES: usize = 64 * 1024;

/// Lists of millions of names and patterns, of just over 50 bytes and of 50, asked on a thread of little stack: over 50 there is no
/// list, however right it would be.
#[test]
fn deep_lists_in_64_kib() {
    let asked = || {
        for part in ["A$", "A$<d>", "A$<d>$", "A$<d><e1>", "<d>"] {
            let deep = format!("{}A", part.repeat(4_000_000)).into_bytes();
            for length in [deep.len(), 1_000_000, 51] {
                let words = claiming(0, length as u32);
                let name = Table::new(&words).stop(1_000_011, &deep).name(GERMAN, ANY);
                assert_eq!(name, Err(Refusal::NameList), "{} {}", part, length);
            }
        }
        let deepest = "A$<d>".repeat(10).into_bytes();
        let words = claiming(0, 50);
        assert_eq!(Table::new(&words).stop(1_000_011, &deepest).name(GERMAN, ANY), Ok(&b"A"[..]));
        let names = format!("{}Z", "A$".repeat(24)).into_bytes();
        let words = claiming(0, 49);
        assert_eq!(Table::new(&words).stop(1_000_011, &names).name(DUTCH, 9), Ok(&b"A"[..]));
    };
    Builder::new().stack_size(STACK_BYTES).spawn(asked).unwrap().join().unwrap();
}
