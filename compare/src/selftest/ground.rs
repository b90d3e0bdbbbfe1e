//! The comparison of the ground itself: it agrees with itself, leaves nothing out, and lets no wrong answer pass.

use crate::ground::question::{parse, WHATS};
use crate::ground::{compare, expected, Answer, Draw, Library, Question, Tally};

const DRAW: Draw = Draw { seed: 1, rounds: 1_000 };

fn compared(library: Library) -> Tally {
    let mut tally = Tally::new(library, DRAW);
    compare(&mut tally);
    tally
}

fn right(question: &Question) -> Answer {
    expected::answer(question)
}

/// Every answer is wrong in one bit: of the first word, or of another by the question's numbers.
fn wrong(question: &Question) -> Answer {
    let mut answer = expected::answer(question);
    answer[question.numbers[1] as usize % 12] ^= 1;
    answer
}

#[test]
fn agrees_with_itself_and_leaves_nothing_out() {
    let tally = compared(right);
    assert_eq!(tally.differences(), 0);
    assert_eq!(tally.gaps(), Vec::<String>::new());
}

#[test]
fn lets_no_wrong_answer_pass() {
    let tally = compared(wrong);
    assert_eq!(tally.differences(), tally.cases());
}

#[test]
fn asks_one_alone() {
    for (part, index, cases) in [("files", 5_000, 1), ("bits", 0, 1), ("bits", u64::MAX, 0), ("rows", 0, 0)] {
        let mut tally = Tally::new(wrong, DRAW).only(part, index);
        compare(&mut tally);
        assert_eq!((tally.cases(), tally.differences()), (cases, cases));
    }
}

#[test]
fn asks_again_what_was_printed() {
    for (what, _, _) in WHATS {
        for bytes in [&b""[..], b"\x00\xff #1"] {
            let question = Question { what, bytes, numbers: [1, 2, u32::MAX, 4] };
            let words: Vec<String> = question.text().split(' ').map(str::to_string).collect();
            assert_eq!(parse(&words), Some((what, bytes.to_vec(), question.numbers)));
        }
    }
}
