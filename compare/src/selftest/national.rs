//! Large deliveries: each is accepted, and is what was wanted.

use crate::generate::{
    bucket, counted_helper, empty_lines, national, shortest_categories, shortest_in, shortest_records, worst_numbers,
    National, Numbers, Rng, WORST_STOP_LINES,
};
use crate::layout::{BIT_FIELDS_AT, CLASSES_AT, SERVICES_AT, STOPS_AT};
use crate::reader::{load, Loaded};

const NUMBERS: [Numbers; 3] = [Numbers::Consecutive, Numbers::EqualEnding, Numbers::Random];

/// The table of a delivery that must be accepted.
fn table_of(files: &[Vec<u8>; 6]) -> Vec<u32> {
    let [a, b, c, d, e, f] = files;
    let mut table = vec![0; 8_000_000];
    let mut helper = vec![7; counted_helper(files)];
    match load([a, b, c, d, e, f], &mut table, &mut helper) {
        Loaded::Accepted { words } => table.truncate(words as usize),
        refused => panic!("{:?}", refused),
    }
    table
}

#[test]
fn services() {
    let mut rng = Rng::new(1);
    for numbers in NUMBERS {
        for (stops, bit_fields) in [(2, 0), (2, 2), (3, 3), (40, 7), (900, 500), (30_000, 20_000)] {
            let categories = rng.pick(&[1, 40, 40, 900, 20_000]);
            let size = National { fplan_bytes: 300_000, stops, bit_fields, numbers, categories };
            let files = national(&mut rng, &size);
            let table = table_of(&files);
            assert_eq!((table[BIT_FIELDS_AT] as usize, table[STOPS_AT] as usize), (bit_fields, stops));
            assert_eq!(table[CLASSES_AT] as usize, categories);
            assert!((280_000..=300_000).contains(&files[4].len()), "{}", files[4].len());
        }
    }
}

/// Blank, "#n", and a stop with nothing, a time or "#k": both ends of *G and of *A are written in each way.
#[test]
fn range_ends() {
    let files = national(&mut Rng::new(1), &National::of_bytes(1_000_000));
    let lines: Vec<&[u8]> = files[4].split(|byte| *byte == b'\n').collect();
    for (start, end, detail) in [("*G ", 7, 23), ("*G ", 15, 30), ("*A ", 6, 29), ("*A ", 14, 36)] {
        let of_kind = || lines.iter().filter(|line| line.starts_with(start.as_bytes()));
        let ways = [(b' ', b' '), (b'#', b' '), (b'1', b' '), (b'1', b'#')];
        for (first, beside) in ways {
            let times = of_kind().filter(|line| line[end] == first && line[detail] == beside).count();
            assert!(times > 10, "{} {} {} only {} times", start, first, beside, times);
        }
        assert!(of_kind().any(|line| line[end] == b'1' && line[detail + 1] == b'0'), "{} with a time", start);
    }
}

#[test]
fn shortest_lines() {
    for numbers in NUMBERS {
        let files = shortest_records(&mut Rng::new(1), 1_000_000, numbers);
        let lengths = |file: usize| files[file].split(|byte| *byte == b'\n').map(<[u8]>::len).max();
        assert_eq!([1, 2, 3].map(lengths), [Some(103), Some(13), Some(13)]);
        assert_eq!(table_of(&files)[BIT_FIELDS_AT..=SERVICES_AT], [9_615, 71_428, 71_428, 0]);
    }
    let files = empty_lines(10_000);
    assert_eq!(files[1..4].iter().map(Vec::len).collect::<Vec<_>>(), [10_000; 3]);
    assert_eq!(table_of(&files)[BIT_FIELDS_AT..=SERVICES_AT], [0, 0, 1, 0]);
}

/// One file alone; UMSTEIGB needs the stops.
#[test]
fn shortest_lines_of_a_file() {
    let counts = |file| table_of(&shortest_in(&mut Rng::new(1), 100_000, file))[BIT_FIELDS_AT..=SERVICES_AT].to_vec();
    assert_eq!([2, 3, 4].map(counts), [[961, 0, 1, 0], [0, 7_142, 1, 0], [0, 7_142, 7_142, 0]]);
}

#[test]
fn shortest_lines_of_zugart() {
    for (bytes, categories) in [(0, 0), (100_000, 4_545), (16 * 1_048_576, 762_600)] {
        let table = table_of(&shortest_categories(&mut Rng::new(1), bytes));
        assert_eq!((table[CLASSES_AT], table[SERVICES_AT]), (categories, 0));
    }
}

/// Each file has as many lines as its map has buckets, and all its numbers are of one of them.
#[test]
fn worst_files() {
    for (lines, listed) in [(500, 500), (WORST_STOP_LINES, 3_162), (20_000, 504)] {
        let files = worst_numbers(&mut Rng::new(1), 100_000, lines);
        let table = table_of(&files);
        let ends = |file: usize| files[file].iter().filter(|byte| **byte == b'\n').count();
        assert_eq!([1, 2, 3].map(ends), [1_000, lines, lines]);
        assert!(listed - 5 <= table[STOPS_AT] as usize && table[STOPS_AT] as usize <= listed, "{}", table[STOPS_AT]);
        assert!(table[BIT_FIELDS_AT] > 990 && table[SERVICES_AT] > 0);
        let numbers = |file: usize, digits: usize| {
            let records = files[file].split(|byte| *byte == b'\n').filter(|line| !line.is_empty());
            records.map(|line| String::from_utf8_lossy(&line[..digits]).parse::<u32>().unwrap()).collect::<Vec<_>>()
        };
        for (file, digits, lines) in [(1, 6, 1_000), (2, 7, lines)] {
            let buckets: Vec<usize> = numbers(file, digits).iter().map(|number| bucket(*number, lines)).collect();
            assert!(buckets.iter().all(|at| *at == buckets[0]));
        }
    }
}
