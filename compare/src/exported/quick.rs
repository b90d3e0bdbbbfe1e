//! The quick questions of the linked archive.

use compare::boundary::size_word;
use compare::functions::Quick;
use estelunya_planner::raw::{
    estelunya_quick_day, estelunya_quick_interchange, estelunya_quick_interchange_between, estelunya_quick_stop_name,
    estelunya_quick_walk, DayResult, InterchangeResult, NameResult, WalkResult,
};

pub struct Exported;

impl Quick for Exported {
    fn day(&self, table: &[u32], index: &[u32], [day, month, year]: [u32; 3], field: u32) -> [u32; 2] {
        let ((words, used), (by, size)) = ((table.as_ptr(), table.len()), (index.as_ptr(), index.len()));
        let answer = unsafe { estelunya_quick_day(words, used, by, size, day, month, year, field) };
        let DayResult { number, runs } = answer;
        [number, runs]
    }

    fn interchange(&self, table: &[u32], index: &[u32], stop: u32, [arriving, departing]: [u32; 2]) -> [u32; 2] {
        let ((words, used), (by, size)) = ((table.as_ptr(), table.len()), (index.as_ptr(), index.len()));
        let answer = unsafe { estelunya_quick_interchange(words, used, by, size, stop, arriving, departing) };
        let InterchangeResult { number, minutes } = answer;
        [number, minutes]
    }

    fn interchange_between(
        &self,
        table: &[u32],
        index: &[u32],
        stop: u32,
        [arriving, departing]: [u32; 2],
    ) -> [u32; 2] {
        let ((words, used), (by, size)) = ((table.as_ptr(), table.len()), (index.as_ptr(), index.len()));
        let answer = unsafe { estelunya_quick_interchange_between(words, used, by, size, stop, arriving, departing) };
        let InterchangeResult { number, minutes } = answer;
        [number, minutes]
    }

    fn stop_name(
        &self,
        table: &[u32],
        index: &[u32],
        bahnhof: &[u8],
        stop: u32,
        [language, kind]: [u32; 2],
    ) -> [u32; 3] {
        let ((words, used), (by, size)) = ((table.as_ptr(), table.len()), (index.as_ptr(), index.len()));
        let (bytes, length) = (bahnhof.as_ptr(), bahnhof.len());
        let answer = unsafe { estelunya_quick_stop_name(words, used, by, size, bytes, length, stop, language, kind) };
        let NameResult { number, start, length } = answer;
        [number, size_word(start), size_word(length)]
    }

    fn walk(
        &self,
        table: &[u32],
        index: &[u32],
        service: u32,
        repeat: u32,
        [day, month, year]: [u32; 3],
        rows: &mut [u32],
    ) -> [u32; 3] {
        let ((words, used), (by, size)) = ((table.as_ptr(), table.len()), (index.as_ptr(), index.len()));
        let (lent, room) = (rows.as_mut_ptr(), rows.len());
        let answer =
            unsafe { estelunya_quick_walk(words, used, by, size, service, repeat, day, month, year, lent, room) };
        let WalkResult { number, rows, needed } = answer;
        [number, rows, needed]
    }
}
