//! `estelunya_quick_connection` of the linked archive.

use compare::functions::Connections;
use estelunya_planner::raw::{estelunya_quick_connection, ConnectionResult};

pub struct Exported;

impl Connections for Exported {
    fn connection(&self, table: &[u32], index: &[u32], parts: &[u32]) -> [u32; 2] {
        let ((words, used), (by, size)) = ((table.as_ptr(), table.len()), (index.as_ptr(), index.len()));
        let answer = unsafe { estelunya_quick_connection(words, used, by, size, parts.as_ptr(), parts.len()) };
        let ConnectionResult { number, part } = answer;
        [number, part]
    }
}
