//! The linked archive as a `Boundary`, by its C functions: an answer's fields are all taken, so that one more is not overlooked.
//! A module of the programs that link it; the library does not.

use compare::boundary::{size_word, Boundary};
use compare::reader::Combination;
use estelunya_planner::raw;

pub struct Archive;

impl Boundary for Archive {
    fn load(&self, files: [&[u8]; 6], table: &mut [u32], helper: &mut [u32]) -> [u32; 5] {
        let [a, b, c, d, e, f] = files.map(<[u8]>::as_ptr);
        let [a_len, b_len, c_len, d_len, e_len, f_len] = files.map(<[u8]>::len);
        let ((words, room), (helps, help_room)) =
            ((table.as_mut_ptr(), table.len()), (helper.as_mut_ptr(), helper.len()));
        // SAFETY: here and below, pointers and lengths are those of slices, and a mutable one overlaps no other.
        let answer = unsafe {
            raw::estelunya_load(
                a, a_len, b, b_len, c, c_len, d, d_len, e, e_len, f, f_len, words, room, helps, help_room,
            )
        };
        let raw::LoadResult { number, file, line, words, column } = answer;
        [number, file, line, words, size_word(column)]
    }

    fn day(&self, table: &[u32], [day, month, year]: [u32; 3], field: u32) -> [u32; 2] {
        let answer = unsafe { raw::estelunya_day(table.as_ptr(), table.len(), day, month, year, field) };
        let raw::DayResult { number, runs } = answer;
        [number, runs]
    }

    fn interchange(&self, table: &[u32], stop: u32, [arriving, departing]: [u32; 2]) -> [u32; 2] {
        let answer = unsafe { raw::estelunya_interchange(table.as_ptr(), table.len(), stop, arriving, departing) };
        let raw::InterchangeResult { number, minutes } = answer;
        [number, minutes]
    }

    fn interchange_between(&self, table: &[u32], stop: u32, [arriving, departing]: [u32; 2]) -> [u32; 2] {
        let (words, used) = (table.as_ptr(), table.len());
        let answer = unsafe { raw::estelunya_interchange_between(words, used, stop, arriving, departing) };
        let raw::InterchangeResult { number, minutes } = answer;
        [number, minutes]
    }

    fn stop_name(&self, table: &[u32], bahnhof: &[u8], stop: u32, [language, kind]: [u32; 2]) -> [u32; 3] {
        let ((words, used), (bytes, length)) = ((table.as_ptr(), table.len()), (bahnhof.as_ptr(), bahnhof.len()));
        let answer = unsafe { raw::estelunya_stop_name(words, used, bytes, length, stop, language, kind) };
        let raw::NameResult { number, start, length } = answer;
        [number, size_word(start), size_word(length)]
    }

    fn walk(&self, table: &[u32], service: u32, repeat: u32, date: [u32; 3], rows: &mut [u32]) -> [u32; 3] {
        let (words, used, [day, month, year]) = (table.as_ptr(), table.len(), date);
        let (lent, room) = (rows.as_mut_ptr(), rows.len());
        let answer = unsafe { raw::estelunya_walk(words, used, service, repeat, day, month, year, lent, room) };
        let raw::WalkResult { number, rows, needed } = answer;
        [number, rows, needed]
    }

    fn combine(&self, of: Combination, n: u32, first: &[u32], second: &[u32], result: &mut [u32]) -> [u32; 1] {
        let function = match of {
            Combination::Union => raw::estelunya_days_union,
            Combination::Intersection => raw::estelunya_days_intersection,
            Combination::Difference => raw::estelunya_days_difference,
        };
        let (lent, room) = (result.as_mut_ptr(), result.len());
        let answer = unsafe { function(n, first.as_ptr(), first.len(), second.as_ptr(), second.len(), lent, room) };
        let raw::DaySetResult { number } = answer;
        [number]
    }

    fn complement(&self, n: u32, field: &[u32], result: &mut [u32]) -> [u32; 1] {
        let (lent, room) = (result.as_mut_ptr(), result.len());
        let answer = unsafe { raw::estelunya_days_complement(n, field.as_ptr(), field.len(), lent, room) };
        let raw::DaySetResult { number } = answer;
        [number]
    }

    fn day_count(&self, n: u32, field: &[u32]) -> [u32; 2] {
        let answer = unsafe { raw::estelunya_days_count(n, field.as_ptr(), field.len()) };
        let raw::DayCountResult { number, days } = answer;
        [number, days]
    }
}
