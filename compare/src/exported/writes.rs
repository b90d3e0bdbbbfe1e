//! `estelunya_write` of the linked archive.

use compare::functions::Writes;
use estelunya_planner::raw::{estelunya_write, WriteResult};

pub struct Exported;

impl Writes for Exported {
    fn write(&self, table: &[u32], text: &mut [u8]) -> [u64; 2] {
        let (bytes, room) = (text.as_mut_ptr(), text.len());
        let WriteResult { number, bytes } = unsafe { estelunya_write(table.as_ptr(), table.len(), bytes, room) };
        [number.into(), bytes as u64]
    }
}
