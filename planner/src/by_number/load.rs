//! Loading a delivery into lent words.

use std::fmt;

use crate::raw;
use crate::refusal::{File, LoadRefusal, Offence};
use crate::version::compared;

/// The six files of a delivery, each as its bytes.
#[derive(Clone, Copy, PartialEq, Eq)]
pub struct Files<'a> {
    /// ECKDATEN: the period.
    pub eckdaten: &'a [u8],
    /// BITFELD: the bit fields.
    pub bitfeld: &'a [u8],
    /// BAHNHOF: the stops.
    pub bahnhof: &'a [u8],
    /// UMSTEIGB: the interchange times.
    pub umsteigb: &'a [u8],
    /// FPLAN: the services.
    pub fplan: &'a [u8],
    /// ZUGART: the categories of services, each with its class.
    pub zugart: &'a [u8],
}

/// The lengths of the files.
impl fmt::Debug for Files<'_> {
    fn fmt(&self, f: &mut fmt::Formatter<'_>) -> fmt::Result {
        f.debug_struct("Files")
            .field("eckdaten", &self.eckdaten.len())
            .field("bitfeld", &self.bitfeld.len())
            .field("bahnhof", &self.bahnhof.len())
            .field("umsteigb", &self.umsteigb.len())
            .field("fplan", &self.fplan.len())
            .field("zugart", &self.zugart.len())
            .finish()
    }
}

/// An accepted delivery.
#[derive(Clone, Copy, Debug, PartialEq, Eq)]
#[non_exhaustive]
pub struct Loaded {
    /// How many words the table has: so many of those lent, from the first.
    pub words: u32,
}

/// Loads a delivery into the words lent. Accepted: later words stay. Refused: all words stay as lent.
///
/// The files are not needed afterwards, but for BAHNHOF if stop names are shown: see
/// [`Table::stop`](crate::by_number::Table::stop).
///
/// A load works in helper words besides. They are lent from the heap here, as many as it needs, and given back; to lend them from
/// elsewhere there is [`load_with`].
///
/// # Errors
///
/// The first offence of the delivery, in document 01's order; [`Offence::TableTooShort`] if it is right but the words lent are too few, which
/// [`room`] words never are.
///
/// # Panics
///
/// If the archive and this crate are not of one version ([`raw::VERSION`]): they are compared once, before the first call of the archive. And if the archive
/// answers a number that this crate does not have, which would mean the same.
pub fn load(files: &Files<'_>, table: &mut [u32]) -> Result<Loaded, LoadRefusal> {
    let mut helper = vec![0; helper_words(files)?];
    load_with(files, table, &mut helper)
}

/// How many words are enough for the table of files with these lengths: lent so many, no load is refused with [`Offence::TableTooShort`]. That is
/// proved. No file is looked into, so most tables have fewer words: [`Loaded::words`] says how many.
///
/// # Panics
///
/// As [`load`] does.
pub fn room(files: &Files<'_>) -> usize {
    let [bitfeld, bahnhof, umsteigb, fplan, zugart] =
        [files.bitfeld, files.bahnhof, files.umsteigb, files.fplan, files.zugart].map(<[u8]>::len);
    room_for(&Lengths { bitfeld, bahnhof, umsteigb, fplan, zugart })
}

/// The lengths, in bytes, of the files that a table's size depends on: all but ECKDATEN.
#[derive(Clone, Copy, Debug, Default, PartialEq, Eq)]
pub struct Lengths {
    /// Of BITFELD.
    pub bitfeld: usize,
    /// Of BAHNHOF.
    pub bahnhof: usize,
    /// Of UMSTEIGB.
    pub umsteigb: usize,
    /// Of FPLAN.
    pub fplan: usize,
    /// Of ZUGART.
    pub zugart: usize,
}

/// As [`room`], by the lengths alone, before a file is read. A file that is too long for a load counts as the longest.
///
/// ```
/// use estelunya_planner::by_number::{room_for, Lengths};
///
/// let longest = estelunya_planner::layout::MOST_FILE_BYTES;
/// let most = Lengths { bitfeld: longest, bahnhof: longest, umsteigb: longest, fplan: longest, zugart: longest };
/// assert_eq!(room_for(&most) * 4, 54_934_228); // bytes
/// ```
///
/// # Panics
///
/// As [`load`] does.
#[must_use]
pub fn room_for(lengths: &Lengths) -> usize {
    compared();
    let Lengths { bitfeld, bahnhof, umsteigb, fplan, zugart } = *lengths;
    // SAFETY: only numbers are given.
    unsafe { raw::estelunya_room(bitfeld, bahnhof, umsteigb, fplan, zugart) }
}

/// How many helper words the load of these files needs: [`HELPER_HEAD_WORDS`](crate::layout::HELPER_HEAD_WORDS), and
/// [`HELPER_LINE_WORDS`](crate::layout::HELPER_LINE_WORDS) for each line of BITFELD, BAHNHOF and UMSTEIGB. No file is looked into
/// further; one that is too long is refused as a load refuses it.
///
/// # Errors
///
/// [`Offence::FileTooLong`], and no other.
///
/// # Panics
///
/// As [`load`] does, here and in [`load_with`].
pub fn helper_words(files: &Files<'_>) -> Result<usize, LoadRefusal> {
    // A load without helper words says it, before anything but the lengths of the files is looked at.
    match load_with(files, &mut [], &mut []) {
        Err(LoadRefusal { offence: Offence::HelperTooShort, needed, .. }) => Ok(needed as usize),
        Err(refusal) => Err(refusal),
        Ok(_) => panic!("the archive loaded without helper words"),
    }
}

/// Loads a delivery as [`load`] does, with helper words of the caller: at least [`helper_words`] of them, else the delivery is
/// refused with [`Offence::HelperTooShort`]. They may hold anything. Afterwards those that are needed hold 0, whatever the answer,
/// and further ones stay as lent; where they are too few, or a file is too long, all stay.
///
/// # Errors
///
/// As of [`load`], and [`Offence::HelperTooShort`].
pub fn load_with(files: &Files<'_>, table: &mut [u32], helper: &mut [u32]) -> Result<Loaded, LoadRefusal> {
    compared();
    let Files { eckdaten, bitfeld, bahnhof, umsteigb, fplan, zugart } = *files;
    // SAFETY: each pointer and length is that of a slice, and the two mutable slices overlap no other.
    let answer = unsafe {
        raw::estelunya_load(
            eckdaten.as_ptr(),
            eckdaten.len(),
            bitfeld.as_ptr(),
            bitfeld.len(),
            bahnhof.as_ptr(),
            bahnhof.len(),
            umsteigb.as_ptr(),
            umsteigb.len(),
            fplan.as_ptr(),
            fplan.len(),
            zugart.as_ptr(),
            zugart.len(),
            table.as_mut_ptr(),
            table.len(),
            helper.as_mut_ptr(),
            helper.len(),
        )
    };
    match answer.number {
        0 => Ok(Loaded { words: answer.words }),
        _ => Err(refusal(answer)),
    }
}

fn refusal(answer: raw::LoadResult) -> LoadRefusal {
    match Offence::from_number(answer.number) {
        Some(offence) => LoadRefusal {
            offence,
            file: File::from_number(answer.file),
            line: answer.line,
            column: answer.column,
            needed: answer.words,
        },
        None => panic!("the archive answered {:?}", answer),
    }
}
