//! Helper words (document 02, No. 13): how many a load needs, and what it leaves in them.

mod trial_week;

use estelunya_planner::by_number::{helper_words, load, load_with, Loaded};
use estelunya_planner::layout::{HELPER_HEAD_WORDS, HELPER_LINE_WORDS};
use estelunya_planner::{File, Files, Offence};
use trial_week::TRIAL_WEEK;

const NEEDED: usize = HELPER_HEAD_WORDS + 5 * HELPER_LINE_WORDS;

#[test]
fn needed() {
    assert_eq!(helper_words(&TRIAL_WEEK), Ok(84));
    let lines = |bitfeld, bahnhof, umsteigb| helper_words(&Files { bitfeld, bahnhof, umsteigb, ..TRIAL_WEEK });
    assert_eq!(lines(b"", b"", b""), Ok(64));
    // an empty last piece is no line; skipped lines, and one that is a lone CR, are
    assert_eq!(lines(b"\n", b"%\n \n", b"x\n\r"), Ok(64 + 4 * 5));
    let whole = vec![b'\n'; 16_777_216];
    assert_eq!(lines(&whole, &whole, &whole), Ok(64 + 4 * 3 * 16_777_216));
    let longer = vec![b'\n'; 16_777_217];
    let refusal = lines(b"", b"", &longer).unwrap_err();
    assert_eq!((refusal.offence, refusal.file, refusal.needed), (Offence::FileTooLong, Some(File::Umsteigb), 0));
}

/// Just enough, and six more, whatever they hold; the answer and the table are those of a load that lends them by itself.
#[test]
fn enough() {
    let (mut own, mut words) = (vec![7; 100], vec![7; 100]);
    let loaded = load(&TRIAL_WEEK, &mut own);
    let mut helper = [vec![u32::MAX; NEEDED], vec![9; 6]].concat();
    assert_eq!((load_with(&TRIAL_WEEK, &mut words, &mut helper), &words), (loaded, &own));
    assert_eq!(helper, [vec![0; NEEDED], vec![9; 6]].concat());
    let mut helper = vec![5; NEEDED];
    assert!(matches!(load_with(&TRIAL_WEEK, &mut words, &mut helper), Ok(Loaded { .. })));
    assert_eq!(helper, [0; NEEDED]);
}

/// 0 after every refusal but 1 and 51, 20 too.
#[test]
fn refused() {
    let emptied = |files: &Files<'_>| {
        let mut helper = [vec![5; NEEDED], vec![9; 1]].concat();
        let refusal = load_with(files, &mut [], &mut helper).unwrap_err();
        (
            refusal.offence,
            helper == [vec![0; NEEDED], vec![9; 1]].concat(),
            helper == [vec![5; NEEDED], vec![9; 1]].concat(),
        )
    };
    assert_eq!(emptied(&TRIAL_WEEK), (Offence::TableTooShort, true, false));
    assert_eq!(emptied(&Files { eckdaten: b"", ..TRIAL_WEEK }), (Offence::LineMissing, true, false));
    assert_eq!(emptied(&Files { fplan: b"*", ..TRIAL_WEEK }), (Offence::NoServiceYet, true, false));
    let long = vec![b' '; 16_777_217];
    assert_eq!(emptied(&Files { fplan: &long, ..TRIAL_WEEK }), (Offence::FileTooLong, false, true));
    // Nothing but the lengths comes before the helper words.
    let refusal = load_with(&Files { eckdaten: b"", ..TRIAL_WEEK }, &mut [], &mut [5; NEEDED - 1]).unwrap_err();
    assert_eq!((refusal.offence, refusal.file, refusal.line), (Offence::HelperTooShort, None, 0));
    assert_eq!((refusal.column, refusal.needed as usize), (0, NEEDED));
    assert_eq!(
        refusal.to_string(),
        "refused 51 file 0 line 0 column 0: the helper words lent are too few for the lines of BITFELD, BAHNHOF and UMSTEIGB: \
         84 words are needed"
    );
}

/// Too few: neither the table nor the helper words have changed.
#[test]
fn too_few() {
    for helper in [0, 1, 63, 64, NEEDED - 1] {
        let (mut table, mut lent) = (vec![7; 100], vec![5; helper]);
        let refusal = load_with(&TRIAL_WEEK, &mut table, &mut lent).unwrap_err();
        assert_eq!((refusal.offence.number(), refusal.needed), (51, 84));
        assert_eq!((table, lent), (vec![7; 100], vec![5; helper]));
    }
}
