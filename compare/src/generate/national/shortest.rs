//! BITFELD, BAHNHOF and UMSTEIGB of the shortest lines, as many as a file may hold; FPLAN and ZUGART are empty.

use super::{bit_field_file, interchange_file, year};
use crate::generate::numbers::Numbers;
use crate::generate::rng::Rng;

/// The bytes of a record with its LF.
const BIT_FIELD_BYTES: usize = 104;
const STOP_BYTES: usize = 14;
const INTERCHANGE_BYTES: usize = 14;

/// At most so many bytes in each file, its records as short as they may be.
pub fn shortest_records(rng: &mut Rng, bytes: usize, numbers: Numbers) -> [Vec<u8>; 6] {
    let fields = numbers.bit_fields(rng, bytes / BIT_FIELD_BYTES);
    let stops = numbers.stops(rng, bytes / STOP_BYTES);
    let own = &stops[..(bytes / INTERCHANGE_BYTES).saturating_sub(1)];
    let names = stops.iter().flat_map(|stop| format!("{:07}     Q\n", stop).into_bytes()).collect();
    [year(), bit_field_file(rng, &fields), names, interchange_file(rng, own), Vec::new(), Vec::new()]
}

/// The same in one of these files alone, 2 to 4; but UMSTEIGB's stops are in BAHNHOF too.
pub fn shortest_in(rng: &mut Rng, bytes: usize, file: usize) -> [Vec<u8>; 6] {
    let mut files = shortest_records(rng, bytes, Numbers::Consecutive);
    for other in [2, 3, 4] {
        if other != file && !(file == 4 && other == 3) {
            files[other - 1].clear();
        }
    }
    if file != 4 {
        files[3] = interchange_file(rng, &[]);
    }
    files
}

/// So many line ends in BITFELD and BAHNHOF, and in UMSTEIGB before its first record.
pub fn empty_lines(bytes: usize) -> [Vec<u8>; 6] {
    const RECORD: &[u8] = b"9999999  2  3\n";
    let mut records = vec![b'\n'; bytes.saturating_sub(RECORD.len())];
    records.extend_from_slice(RECORD);
    [year(), vec![b'\n'; bytes], vec![b'\n'; bytes], records, Vec::new(), Vec::new()]
}

/// ZUGART of at most so many bytes, its lines as short as they may be and its codes of all bytes that are seen; the other files have only what they must.
pub fn shortest_categories(rng: &mut Rng, bytes: usize) -> [Vec<u8>; 6] {
    const LINE: &[u8] = b"???  0   0          0\n";
    let seen = || (b'!'..=b'~').filter(|byte| *byte != b'%');
    let codes = seen().flat_map(|a| seen().flat_map(move |b| seen().map(move |c| [a, b, c])));
    let line = |code: [u8; 3]| code.into_iter().chain(LINE[3..].iter().copied());
    let categories = codes.take(bytes / LINE.len()).flat_map(line).collect();
    [year(), Vec::new(), Vec::new(), interchange_file(rng, &[]), Vec::new(), categories]
}
