//! Numbers and names of refusals.

use estelunya_planner::by_number::load;
use estelunya_planner::{File, Files, Offence, Refusal};

#[test]
fn numbers_and_back() {
    for number in 0..100 {
        let offence = Offence::from_number(number);
        assert_eq!(offence.is_some(), (1..=20).contains(&number) || [37, 38, 39, 51].contains(&number));
        assert_eq!(offence.map_or(number, Offence::number), number);
        let refusal = Refusal::from_number(number, 28);
        assert_eq!(refusal.is_some(), (21..=50).contains(&number) && ![30, 32, 37].contains(&number));
        assert_eq!(refusal.map_or(number, Refusal::number), number);
        let file = File::from_number(number);
        assert_eq!(file.is_some(), (1..=6).contains(&number));
        assert_eq!(file.map_or(number, File::number), number);
    }
    assert_eq!(Offence::from_number(u32::MAX), None);
}

#[test]
fn texts() {
    assert_eq!(
        Offence::FrameWrong.to_string(),
        "the frame is wrong: two bits 1 before and two after the days of the period, then 0"
    );
    assert_eq!(Offence::TwoStretches.number(), 19);
    assert_eq!(File::Umsteigb.to_string(), "UMSTEIGB");
    assert_eq!(
        Refusal::RowsTooShort { needed: 28 }.to_string(),
        "refused 29: the words lent are too few: 28 words are needed"
    );
    assert_eq!(Refusal::TwoStretches.number(), 35);
    let texts: Vec<String> = (1..=51).filter_map(Offence::from_number).map(|offence| offence.to_string()).collect();
    assert_eq!(texts.len(), 24);
    assert!((0..24).all(|i| !texts[i].is_empty() && !texts[..i].contains(&texts[i])));
}

#[test]
fn a_refused_delivery() {
    let files = Files {
        eckdaten: b"01.12.2025\n31.11.2025\n\n",
        bitfeld: b"",
        bahnhof: b"",
        umsteigb: b"",
        fplan: b"",
        zugart: b"",
    };
    let mut words = [7; 3];
    let refusal = load(&files, &mut words).unwrap_err();
    assert_eq!((refusal.offence, refusal.file, refusal.line), (Offence::NoSuchDate, Some(File::Eckdaten), 2));
    assert!(refusal.to_string().starts_with("refused 5 file 1 line 2 column 0: ECKDATEN: there is no such date"));
    assert_eq!(words, [7; 3]);
    let enough = Files { eckdaten: b"01.12.2025\n07.12.2025\n\n", umsteigb: b"9999999  2  3", ..files };
    let refusal = load(&enough, &mut words).unwrap_err();
    assert_eq!((refusal.offence, refusal.file, refusal.needed), (Offence::TableTooShort, None, 12));
    assert!(refusal.to_string().ends_with(": 12 words are needed"));
}

#[test]
fn a_broken_form() {
    let files = Files {
        eckdaten: b"01.12.2025\n07.12.2025\n\n",
        bitfeld: b"",
        bahnhof: b"",
        umsteigb: b"9999999  2  3",
        fplan: b"*Z 00042 FERRY_       023                                 %",
        zugart: b"",
    };
    let refusal = load(&files, &mut []).unwrap_err();
    assert_eq!((refusal.offence, refusal.file, refusal.line), (Offence::Form, Some(File::Fplan), 1));
    assert_eq!((refusal.column, refusal.needed), (27, 0));
    assert!(refusal.to_string().starts_with("refused 4 file 5 line 1 column 27: FPLAN: "));
}

/// ZUGART is file 6, and is looked at before FPLAN.
#[test]
fn categories() {
    let files = Files {
        eckdaten: b"01.12.2025\n07.12.2025\n\n",
        bitfeld: b"",
        bahnhof: b"",
        umsteigb: b"9999999  2  3",
        fplan: b"?",
        zugart: b"",
    };
    let refused = |zugart: &[u8], fplan: &[u8]| {
        let refusal = load(&Files { zugart, fplan, ..files }, &mut []).unwrap_err();
        (refusal.offence, refusal.file, refusal.line, refusal.column)
    };
    assert_eq!(refused(b"<text>", b"?"), (Offence::Form, Some(File::Zugart), 1, 4));
    assert_eq!(refused(b"IC   1   0          1\nIC   2   0          1", b"?").0, Offence::NumberSeenEarlier);
    let group = b"% A\nIC   1   0          1\nRE   3 A 0          0";
    assert_eq!(refused(group, b"?"), (Offence::TariffGroup, Some(File::Zugart), 3, 0));
    let boat = b"*Z 00042 FERRY_                                           %\n*G BAT                                                    %";
    assert_eq!(refused(b"bat  4   0          0", boat), (Offence::CategoryUnknown, Some(File::Fplan), 2, 0));
    assert_eq!(refused(b"BAT  4   0          0", boat), (Offence::UnderTwoCalls, Some(File::Fplan), 1, 0));
    let refusal = load(&Files { zugart: group, ..files }, &mut []).unwrap_err();
    assert!(refusal.to_string().starts_with("refused 37 file 6 line 3 column 0: ZUGART: a tariff group"));
}
