//! `estelunya_index` and `estelunya_check_index` of the linked archive.

use compare::functions::Indexes;
use estelunya_planner::raw::{estelunya_check_index, estelunya_index, IndexResult};

pub struct Exported;

// SAFETY: in this directory, pointers and lengths are those of slices, and a mutable one overlaps no other.
impl Indexes for Exported {
    fn index(&self, table: &[u32], lent: &mut [u32]) -> [u64; 2] {
        let (words, room) = (lent.as_mut_ptr(), lent.len());
        let IndexResult { number, words } = unsafe { estelunya_index(table.as_ptr(), table.len(), words, room) };
        [number.into(), words as u64]
    }

    fn check_index(&self, table: &[u32], index: &[u32]) -> [u64; 1] {
        let (words, used) = (index.as_ptr(), index.len());
        [unsafe { estelunya_check_index(table.as_ptr(), table.len(), words, used) }.into()]
    }
}
