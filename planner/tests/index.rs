//! An index by bare number: made, checked, and asked beside the plain questions.

mod trial_week;

use estelunya_planner::by_number::{category_word, load, room, Date, Table, Walk};
use estelunya_planner::{layout, Refusal, MOST_ROW_WORDS};
use trial_week::TRIAL_WEEK;

fn words() -> Vec<u32> {
    let mut words = vec![0; room(&TRIAL_WEEK)];
    let used = load(&TRIAL_WEEK, &mut words).unwrap().words as usize;
    words.truncate(used);
    words
}

fn index(table: Table<'_>) -> Vec<u32> {
    let mut index = vec![0; table.index_words().unwrap()];
    assert_eq!(table.make_index(&mut index), Ok(index.len()));
    index
}

#[test]
fn made() {
    let words = words();
    let table = Table::new(&words);
    let needed = table.index_words().unwrap();
    // a bit field, three stops, an interchange record and a category; a service; three stops; four calls; the mark
    assert_eq!(needed, 2 * 6 + 1 + 3 + 4 * 4 + 1);
    let mut lent = vec![9; needed + 2];
    assert_eq!(table.make_index(&mut lent[..needed - 1]), Err(Refusal::RowsTooShort { needed }));
    assert!(lent.iter().all(|word| *word == 9));
    assert_eq!(table.make_index(&mut lent), Ok(needed));
    assert_eq!((&lent[..needed], &lent[needed..]), (&index(table)[..], &[9, 9][..]));
    assert_eq!(Table::new(&[]).index_words(), Err(Refusal::NotATable));
}

/// The mark, the last word: 1 of every table that was loaded, 0 where a time falls. By either a board is that of the walks.
#[test]
fn marked() {
    let mut words = words();
    let board = |words: &[u32], own: &[u32]| {
        let date = Date { day: 5, month: 12, year: 2025 };
        Table::new(words).with_index(own).board(1_000_011, date, 0..=u32::MAX).unwrap().len()
    };
    let own = index(Table::new(&words));
    assert_eq!((own.last(), board(&words, &own)), (Some(&1), 1));
    // the arrival of the last of four calls: no walk takes it now
    let first = words[layout::FIRST_SERVICE_AT] as usize + layout::SERVICE_WORDS;
    words[first + 3 * layout::CALL_WORDS + layout::CALL_ARRIVAL_AT] = 0;
    let other = index(Table::new(&words));
    assert_eq!((other.last(), board(&words, &other)), (Some(&0), 0));
    assert_eq!(other[..other.len() - 1], own[..own.len() - 1]);
    // the mark of words that were altered since says what it said
    assert_eq!(Table::new(&words).check_index(&own), Err(Refusal::NotItsIndex));
    assert_eq!(board(&words, &own), 1);
}

#[test]
fn checked() {
    let words = words();
    let table = Table::new(&words);
    let mut own = index(table);
    assert_eq!(table.check_index(&own), Ok(()));
    for at in 0..own.len() {
        own[at] ^= 1;
        assert_eq!(table.check_index(&own), Err(Refusal::NotItsIndex), "word {} changed", at);
        own[at] ^= 1;
    }
    assert_eq!(table.check_index(&own[1..]), Err(Refusal::NotItsIndex));
    own.push(0);
    assert_eq!(table.check_index(&own), Err(Refusal::NotItsIndex));
    assert_eq!(Table::new(&words[1..]).check_index(&own), Err(Refusal::NotATable));
}

/// Of a table and its own index every quick answer is the plain one.
#[test]
fn quick_as_plain() {
    let words = words();
    let table = Table::new(&words);
    let own = index(table);
    let indexed = table.with_index(&own);
    for number in [0, 1, 2, 1_000_011, 1_000_022, 9_999_999] {
        for day in 0..9 {
            let date = Date { day, month: 12, year: 2025 };
            assert_eq!(indexed.day(number, date), table.day(number, date));
        }
        for (arriving, departing) in [(0, 0), (3, 3), (14, 0)] {
            assert_eq!(
                indexed.interchange(number, arriving, departing),
                table.interchange(number, arriving, departing)
            );
        }
        for code in [*b"BAT", *b"CAT"].map(category_word) {
            assert_eq!(indexed.interchange_between(number, code, code), table.interchange_between(number, code, code));
        }
        for (language, kind) in [(b'd'.into(), 0), (1, 3)] {
            let plain = table.stop(number, TRIAL_WEEK.bahnhof).name(language, kind);
            assert_eq!(indexed.stop_name(number, TRIAL_WEEK.bahnhof, language, kind), plain);
        }
    }
    for (service, repeat, day) in [(0, 0, 5), (0, 0, 6), (0, 1, 5), (1, 0, 5), (0, 0, 9)] {
        let date = Date { day, month: 12, year: 2025 };
        let (mut quick, mut plain) = ([9; MOST_ROW_WORDS], [9; MOST_ROW_WORDS]);
        let quickly = indexed.walk(service, repeat, date, &mut quick).map(|walk| walk == Walk::NotRunning);
        let plainly = table.walk(service, repeat, date, &mut plain).map(|walk| walk == Walk::NotRunning);
        assert_eq!((quickly, quick), (plainly, plain));
        assert_eq!(indexed.walk(service, repeat, date, &mut []), table.walk(service, repeat, date, &mut []));
    }
}

/// An index of a length that this table cannot have is refused, whatever is asked.
#[test]
fn not_its_length() {
    let words = words();
    let table = Table::new(&words);
    let date = Date { day: 5, month: 12, year: 2025 };
    let own = index(table);
    let short = table.with_index(&own[..3]);
    assert_eq!(short.day(1, date), Err(Refusal::NotItsIndex));
    assert_eq!(short.walk(0, 0, date, &mut []), Err(Refusal::NotItsIndex));
    assert_eq!(Table::new(&[]).with_index(&own).day(1, date), Err(Refusal::NotATable));
}

/// FPLAN into lent bytes: room one byte short, later bytes stay.
#[test]
fn written() {
    let words = words();
    let table = Table::new(&words);
    let text = table.fplan().unwrap();
    assert_eq!(text.len(), 60 * 7);
    let mut lent = vec![b'?'; text.len() + 2];
    let needed = text.len();
    assert_eq!(table.write_fplan(&mut lent[..needed - 1]), Err(Refusal::TextTooShort { needed }));
    assert!(lent.iter().all(|byte| *byte == b'?'));
    assert_eq!(table.write_fplan(&mut lent), Ok(needed));
    assert_eq!((&lent[..needed], &lent[needed..]), (&text[..], &b"??"[..]));
    let mut again = vec![0; room(&TRIAL_WEEK)];
    let mut files = TRIAL_WEEK;
    files.fplan = &text;
    let used = load(&files, &mut again).unwrap().words as usize;
    assert_eq!(again[..used], words);
    assert_eq!(Table::new(&[7; 40]).fplan(), Err(Refusal::NotATable));
}

/// A number of five digits holds no more.
#[test]
fn not_writable() {
    let mut words = words();
    let place = words[layout::FIRST_SERVICE_AT] as usize;
    words[place + layout::NUMBER_AT] = 100_000;
    assert_eq!(Table::new(&words).fplan(), Err(Refusal::NotWritable));
}
