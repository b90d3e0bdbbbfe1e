//! The library's ground against the reader. It links the archive of the crate `probe` (tools/host.sh).
//!
//!     ground [SEED [ROUNDS]]              compares everything, with about so many random inputs
//!     ground again NAME HEX NUMBER..      asks one question again, as a difference was printed
//!     ground at SEED ROUNDS PART INDEX    the same for a long question, by its place

use compare::ground::question::{number, parse, three, told};
use compare::ground::{compare, expected, Answer, Draw, Question, Tally, What};

#[repr(C)]
struct Step {
    stop: usize,
    next: usize,
    no: u32,
}

#[repr(C)]
struct Told {
    kind: u32,
    value: u32,
}

#[repr(C)]
struct Words {
    words: [u32; 12],
}

// A slice crosses the boundary as a pointer and a length.
extern "C" {
    fn probe_line(file: *const u8, length: usize, at: usize, no: u32) -> Step;
    fn probe_skips(line: *const u8, length: usize) -> bool;
    fn probe_column(line: *const u8, length: usize, c: usize) -> u8;
    fn probe_number(line: *const u8, length: usize, a: usize, b: usize) -> u32;
    fn probe_count(line: *const u8, length: usize, a: usize, b: usize, most: u32) -> bool;
    fn probe_every(line: *const u8, length: usize, a: usize, b: usize, class: u32, byte: u8) -> bool;
    fn probe_time(line: *const u8, length: usize, a: usize, b: usize) -> Told;
    fn probe_range_end(line: *const u8, length: usize, a: usize, b: usize) -> Told;
    fn probe_detail(line: *const u8, length: usize, a: usize, b: usize) -> Told;
    fn probe_kind(line: *const u8, length: usize) -> u32;
    fn probe_form(line: *const u8, length: usize, kind: u32) -> usize;
    fn probe_day(d: u32, m: u32, y: u32) -> Told;
    fn probe_date(line: *const u8, length: usize) -> Told;
    fn probe_period(first: u32, last: u32) -> Told;
    fn probe_bits(line: *const u8, length: usize) -> Words;
    fn probe_bit(b: &[u32; 12], k: u32) -> bool;
    fn probe_runs(b: &[u32; 12], d: u32) -> bool;
    fn probe_framed(b: &[u32; 12], n: u32) -> bool;
    fn probe_some_day(b: &[u32; 12], n: u32) -> bool;
    fn probe_no_bits() -> Words;
    fn probe_all_bits() -> Words;
    fn probe_either(a: &[u32; 12], b: &[u32; 12]) -> Words;
    fn probe_both(a: &[u32; 12], b: &[u32; 12]) -> Words;
    fn probe_without(a: &[u32; 12], b: &[u32; 12]) -> Words;
}

/// The library's answer.
fn library(question: &Question) -> Answer {
    match question.what {
        What::Bit | What::Runs | What::Framed | What::SomeDay => number(u32::from(bit_answer(question))),
        What::NoBits | What::AllBits | What::Either | What::Both | What::Without => set_answer(question).words,
        _ => line_answer(question),
    }
}

fn line_answer(question: &Question) -> Answer {
    let (line, length) = (question.bytes.as_ptr(), question.bytes.len());
    let [x, y, z, m] = question.numbers;
    let (a, b) = (x as usize, y as usize);
    // The pointer and length are those of a slice that lives as long as the call.
    unsafe {
        match question.what {
            What::Step => flat_step(probe_line(line, length, a, y)),
            What::Skips => number(u32::from(probe_skips(line, length))),
            What::Column => number(u32::from(probe_column(line, length, a))),
            What::Number => number(probe_number(line, length, a, b)),
            What::Count => number(u32::from(probe_count(line, length, a, b, z))),
            What::Every => number(u32::from(probe_every(line, length, a, b, z, m as u8))),
            What::Time => flat(probe_time(line, length, a, b)),
            What::RangeEnd => flat(probe_range_end(line, length, a, b)),
            What::Detail => flat(probe_detail(line, length, a, b)),
            What::Kind => number(probe_kind(line, length)),
            What::Form => number(probe_form(line, length, x) as u32),
            What::Day => flat(probe_day(x, y, z)),
            What::Date => flat(probe_date(line, length)),
            What::Period => flat(probe_period(x, y)),
            _ => probe_bits(line, length).words,
        }
    }
}

fn bit_answer(question: &Question) -> bool {
    let (words, k) = (question.words(0), question.numbers[0]);
    unsafe {
        match question.what {
            What::Bit => probe_bit(&words, k),
            What::Runs => probe_runs(&words, k),
            What::Framed => probe_framed(&words, k),
            _ => probe_some_day(&words, k),
        }
    }
}

fn set_answer(question: &Question) -> Words {
    unsafe {
        match question.what {
            What::NoBits => probe_no_bits(),
            What::AllBits => probe_all_bits(),
            What::Either => probe_either(&question.words(0), &question.words(1)),
            What::Both => probe_both(&question.words(0), &question.words(1)),
            _ => probe_without(&question.words(0), &question.words(1)),
        }
    }
}

fn flat(told_answer: Told) -> Answer {
    told(told_answer.kind, told_answer.value)
}

fn flat_step(step: Step) -> Answer {
    three(step.stop as u32, step.next as u32, step.no)
}

fn ask_again(words: &[String]) -> bool {
    match parse(words) {
        Some((what, bytes, numbers)) => {
            let question = Question { what, bytes: &bytes, numbers };
            let (reader, library) = (expected::answer(&question), library(&question));
            println!("reader  {:?}\nlibrary {:?}", reader, library);
            reader == library
        }
        None => {
            eprintln!("ground again NAME HEX NUMBER..");
            false
        }
    }
}

fn ask_at(words: &[String]) -> bool {
    let place = match words {
        [seed, rounds, part, index] => match (seed.parse(), rounds.parse(), index.parse()) {
            (Ok(seed), Ok(rounds), Ok(index)) => Some((Draw { seed, rounds }, part, index)),
            _ => None,
        },
        _ => None,
    };
    let (draw, part, index) = match place {
        Some(place) => place,
        None => {
            eprintln!("ground at SEED ROUNDS PART INDEX");
            return false;
        }
    };
    let mut tally = Tally::new(library, draw).only(part, index);
    compare(&mut tally);
    println!("ground: {} cases, {} differences", tally.cases(), tally.differences());
    tally.cases() == 1 && tally.differences() == 0
}

fn compare_all(draw: Draw) -> bool {
    println!("ground: seed {}, {} rounds", draw.seed, draw.rounds);
    let mut tally = Tally::new(library, draw);
    compare(&mut tally);
    tally.report()
}

fn main() {
    let words: Vec<String> = std::env::args().skip(1).collect();
    let agreed = match words.first().map(String::as_str) {
        Some("again") => ask_again(&words[1..]),
        Some("at") => ask_at(&words[1..]),
        _ => {
            let word = |at: usize, other: u64| words.get(at).map_or(Some(other), |word| word.parse().ok());
            match (word(0, 1), word(1, 1_000_000)) {
                (Some(seed), Some(rounds)) => compare_all(Draw { seed, rounds: rounds as u32 }),
                _ => {
                    eprintln!("ground [SEED [ROUNDS]]");
                    false
                }
            }
        }
    };
    std::process::exit(i32::from(!agreed));
}
