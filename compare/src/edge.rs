//! Words and bytes lent at the edge of a page that nobody may touch: a read or write one place outside ends the program. On the other side stand guards with a pattern,
//! which are looked at after the call.

use std::ptr::{null_mut, NonNull};
use std::slice::{from_raw_parts, from_raw_parts_mut};

const PAGE: usize = 65_536;
const GUARD: usize = 64;

const PROT_NONE: i32 = 0;
const PROT_READ: i32 = 1;
const PROT_WRITE: i32 = 2;
const MAP_PRIVATE: i32 = 2;
const MAP_ANONYMOUS: i32 = 32;

extern "C" {
    fn mmap(at: *mut u8, length: usize, protection: i32, flags: i32, file: i32, offset: i64) -> *mut u8;
    fn munmap(at: *mut u8, length: usize) -> i32;
    fn mprotect(at: *mut u8, length: usize, protection: i32) -> i32;
}

/// At which end of what is lent the untouchable page stands.
#[derive(Clone, Copy, Debug, PartialEq, Eq)]
pub enum Side {
    Front,
    Behind,
}

/// Memory between two untouchable pages.
pub struct Edge {
    /// Of the mapping, whose first page is untouchable.
    start: NonNull<u8>,
    room: usize,
}

/// What was lent: where it starts between the two pages, and how many bytes it has.
#[derive(Clone, Copy)]
struct Place {
    at: usize,
    length: usize,
}

fn pattern(at: usize) -> u8 {
    (at.wrapping_mul(151) ^ 0xA5) as u8
}

impl Default for Edge {
    fn default() -> Edge {
        Edge::with_room(16 * PAGE)
    }
}

impl Edge {
    /// With room for so many bytes at least.
    pub fn with_room(bytes: usize) -> Edge {
        let room = (bytes + 2 * GUARD + PAGE - 1) / PAGE * PAGE;
        // SAFETY: a new mapping of the system's choice, untouchable but for its middle.
        let start = unsafe {
            let start = mmap(null_mut(), room + 2 * PAGE, PROT_NONE, MAP_PRIVATE | MAP_ANONYMOUS, -1, 0);
            assert!(start as isize != -1, "no memory");
            assert_eq!(mprotect(start.add(PAGE), room, PROT_READ | PROT_WRITE), 0, "no memory");
            start
        };
        Edge { start: NonNull::new(start).expect("a mapping"), room }
    }

    fn place(&mut self, length: usize, side: Side) -> Place {
        if length + GUARD > self.room {
            *self = Edge::with_room(2 * length);
        }
        match side {
            Side::Front => Place { at: 0, length },
            Side::Behind => Place { at: self.room - length, length },
        }
    }

    /// The guard bytes beside what is lent.
    fn guard(&self, place: Place) -> (usize, usize) {
        match place.at {
            0 => (place.length, place.length + GUARD),
            at => (at - GUARD, at),
        }
    }

    fn byte(&self, at: usize) -> *mut u8 {
        // SAFETY: all places are between the two pages.
        unsafe { self.start.as_ptr().add(PAGE + at) }
    }

    /// Copies bytes to the edge, with guards beside them.
    fn put(&mut self, bytes: &[u8], side: Side) -> Place {
        let place = self.place(bytes.len(), side);
        let (from, to) = self.guard(place);
        // SAFETY: both parts are between the two pages, and nothing else borrows them.
        unsafe {
            (from..to).for_each(|at| *self.byte(at) = pattern(at));
            self.byte(place.at).copy_from_nonoverlapping(bytes.as_ptr(), bytes.len());
        }
        place
    }

    /// Lends bytes, and gives what a call answered, the bytes after it, and whether the guards are as they were.
    pub fn lend_bytes<A>(&mut self, bytes: &[u8], side: Side, call: impl FnOnce(&mut [u8]) -> A) -> (A, Vec<u8>, bool) {
        let place = self.put(bytes, side);
        // SAFETY: as in `put`.
        let lent = unsafe { from_raw_parts_mut(self.byte(place.at), place.length) };
        let answer = call(lent);
        let after = lent.to_vec();
        let (from, to) = self.guard(place);
        let is_whole = (from..to).all(|at| unsafe { *self.byte(at) } == pattern(at));
        (answer, after, is_whole)
    }

    /// The same with words.
    pub fn lend<A>(&mut self, words: &[u32], side: Side, call: impl FnOnce(&mut [u32]) -> A) -> (A, Vec<u32>, bool) {
        // SAFETY: the bytes of words.
        let bytes = unsafe { from_raw_parts(words.as_ptr().cast::<u8>(), 4 * words.len()) };
        let place = self.put(bytes, side);
        // SAFETY: as in `put`; a page and a count of whole words are aligned.
        let lent = unsafe { from_raw_parts_mut(self.byte(place.at).cast::<u32>(), words.len()) };
        let answer = call(lent);
        let after = lent.to_vec();
        let (from, to) = self.guard(place);
        let is_whole = (from..to).all(|at| unsafe { *self.byte(at) } == pattern(at));
        (answer, after, is_whole)
    }
}

impl Drop for Edge {
    fn drop(&mut self) {
        // SAFETY: the mapping is this one's own.
        unsafe { munmap(self.start.as_ptr(), self.room + 2 * PAGE) };
    }
}

/// What a call is given besides numbers; what it does not take is empty.
#[derive(Clone, Copy, Debug, Default)]
pub struct Given<'a> {
    pub table: &'a [u32],
    pub index: &'a [u32],
    /// The parts of a connection.
    pub parts: &'a [u32],
    /// BAHNHOF.
    pub bytes: &'a [u8],
}

/// What a call answered, what it was lent as it left it, and whether all else is as it was.
#[derive(Clone, Debug, PartialEq, Eq)]
pub struct Left<A, T> {
    pub answer: A,
    pub lent: Vec<T>,
    pub is_kept: bool,
}

/// Memory for a call: what it reads, and what it writes.
#[derive(Default)]
pub struct Edges {
    read: Read,
    lent: Edge,
}

#[derive(Default)]
struct Read {
    table: Edge,
    index: Edge,
    parts: Edge,
    bytes: Edge,
}

impl Read {
    /// Hands all on to a call; gives its answer, and whether all is as it was.
    fn given<A>(&mut self, given: Given<'_>, side: Side, call: impl FnOnce(Given<'_>) -> A) -> (A, bool) {
        let Read { table, index, parts, bytes } = self;
        let (rest, table_left, table_whole) = table.lend(given.table, side, |table| {
            index.lend(given.index, side, |index| {
                parts.lend(given.parts, side, |parts| {
                    bytes.lend_bytes(given.bytes, side, |bytes| call(Given { table, index, parts, bytes }))
                })
            })
        });
        let (rest, index_left, index_whole) = rest;
        let ((answer, bytes_left, bytes_whole), parts_left, parts_whole) = rest;
        let is_whole = table_whole && index_whole && parts_whole && bytes_whole;
        let is_same = table_left == given.table
            && index_left == given.index
            && parts_left == given.parts
            && bytes_left == given.bytes;
        (answer, is_whole && is_same)
    }
}

impl Edges {
    /// Makes a call that is lent words, all at the edge of untouchable pages.
    pub fn words<A>(
        &mut self,
        given: Given<'_>,
        lent: &[u32],
        side: Side,
        call: impl FnOnce(Given<'_>, &mut [u32]) -> A,
    ) -> Left<A, u32> {
        let Edges { read, lent: writer } = self;
        let ((answer, lent, is_whole), is_kept) =
            read.given(given, side, |given| writer.lend(lent, side, |lent| call(given, lent)));
        Left { answer, lent, is_kept: is_kept && is_whole }
    }

    /// The same with bytes.
    pub fn bytes<A>(
        &mut self,
        given: Given<'_>,
        lent: &[u8],
        side: Side,
        call: impl FnOnce(Given<'_>, &mut [u8]) -> A,
    ) -> Left<A, u8> {
        let Edges { read, lent: writer } = self;
        let ((answer, lent, is_whole), is_kept) =
            read.given(given, side, |given| writer.lend_bytes(lent, side, |lent| call(given, lent)));
        Left { answer, lent, is_kept: is_kept && is_whole }
    }
}
