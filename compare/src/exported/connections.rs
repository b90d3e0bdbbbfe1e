//! `estelunya_connection` of the linked archive.

use compare::functions::Connections;
use estelunya_planner::raw::{estelunya_connection, ConnectionResult};

pub struct Exported;

impl Connections for Exported {
    fn connection(&self, table: &[u32], _: &[u32], parts: &[u32]) -> [u32; 2] {
        let answer = unsafe { estelunya_connection(table.as_ptr(), table.len(), parts.as_ptr(), parts.len()) };
        let ConnectionResult { number, part } = answer;
        [number, part]
    }
}
