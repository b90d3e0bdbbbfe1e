//! Departure boards (document 02, No. 9): the calls of the stop, the runs in the span by division, and a sort.

use crate::table::NO_BOARDING;
use crate::timetable::{CallAt, Day, Number, Timetable};

/// A row of a board, in its order.
#[derive(Clone, Copy, Debug, PartialEq, Eq, PartialOrd, Ord)]
pub struct Departure {
    /// In minutes of the day on which the run starts.
    pub time: u32,
    /// From 0.
    pub service: u32,
    /// The run.
    pub repeat: u32,
    /// In the route, from 0.
    pub place: u32,
}

impl Timetable {
    /// The departures from a stop of runs that start on a date, from one time to another: 22, 23, 27.
    pub fn board(&self, stop: u32, date: Day, first: u32, last: u32, board: &mut Vec<Departure>) -> Result<(), Number> {
        board.clear();
        let day = self.day_of(date)?;
        for call in &self.stops[self.place_of(stop)?].calls {
            self.add_departures(*call, day, first, last, board);
        }
        board.sort_unstable();
        Ok(())
    }

    fn add_departures(&self, at: CallAt, day: u32, first: u32, last: u32, board: &mut Vec<Departure>) {
        let service = &self.services[at.service as usize];
        let call = &service.calls[at.place as usize];
        if call.flags & NO_BOARDING != 0 || call.departure > last {
            return;
        }
        let (least, most) = (first.saturating_sub(call.departure), last - call.departure);
        let (from, to) = match service.runs.within(least, most) {
            Some(runs) => runs,
            None => return,
        };
        match self.stretch_of(service, day) {
            Some(stretch) if (stretch.first..stretch.last).contains(&at.place) => {}
            _ => return,
        }
        for repeat in from..=to {
            let late = service.runs.late(repeat).unwrap_or(0);
            board.push(Departure { time: call.departure + late, service: at.service, repeat, place: at.place });
        }
    }
}
