//! `estelunya_quick_board` of the linked archive.

use compare::functions::Boards;
use compare::reader::BoardQuestion;
use estelunya_planner::raw::{estelunya_quick_board, BoardResult};

pub struct Exported;

impl Boards for Exported {
    fn board(&self, table: &[u32], index: &[u32], asked: &BoardQuestion, list: &mut [u32]) -> [u64; 3] {
        let ((words, used), (by, size)) = ((table.as_ptr(), table.len()), (index.as_ptr(), index.len()));
        let BoardQuestion { stop, date: [day, month, year], first, last } = *asked;
        let (lent, room) = (list.as_mut_ptr(), list.len());
        let answer =
            unsafe { estelunya_quick_board(words, used, by, size, stop, day, month, year, first, last, lent, room) };
        let BoardResult { number, rows, needed } = answer;
        [number.into(), rows as u64, needed as u64]
    }
}
