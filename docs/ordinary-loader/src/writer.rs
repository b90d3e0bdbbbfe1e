//! FPLAN written (document 02, No. 11).

use std::io::{self, Write};

use crate::table::{ARRIVAL, DEPARTURE, NO_ALIGHTING, NO_BOARDING};
use crate::timetable::{Call, Runs, Service, Span, Timetable};

/// A line: 58 columns, "%", LF.
struct Line([u8; 60]);

impl Line {
    fn new() -> Line {
        let mut line = [b' '; 60];
        line[58] = b'%';
        line[59] = b'\n';
        Line(line)
    }

    /// Bytes from a column on, counted from 1.
    fn put(mut self, column: usize, bytes: &[u8]) -> Line {
        self.0[column - 1..column - 1 + bytes.len()].copy_from_slice(bytes);
        self
    }

    /// A number in digits from one column to another, with zeros in front.
    fn digits(mut self, first: usize, last: usize, mut number: u32) -> Line {
        for byte in self.0[first - 1..last].iter_mut().rev() {
            *byte = b'0' + (number % 10) as u8;
            number /= 10;
        }
        self
    }

    /// "#" and an index that end in a column.
    fn end(mut self, last: usize, mut index: u32) -> Line {
        let mut at = last - 1;
        loop {
            self.0[at] = b'0' + (index % 10) as u8;
            index /= 10;
            at -= 1;
            if index == 0 {
                break;
            }
        }
        self.0[at] = b'#';
        self
    }

    /// A time with its sign, if it is stated.
    fn time(self, column: usize, minutes: u32, is_stated: bool, is_barred: bool) -> Line {
        if !is_stated {
            return self;
        }
        let sign = if is_barred { b"-" } else { b" " };
        self.put(column, sign).digits(column + 1, column + 3, minutes / 60).digits(column + 4, column + 5, minutes % 60)
    }
}

impl Timetable {
    /// All services in one clean form.
    pub fn write_fplan(&self, out: &mut impl Write) -> io::Result<()> {
        self.services.iter().try_for_each(|service| self.write_service(service, out))
    }

    fn write_service(&self, service: &Service, out: &mut impl Write) -> io::Result<()> {
        let line = Line::new().digits(4, 8, service.number).put(10, &six_bytes(service.administration));
        let opening = match service.runs {
            Runs::Repeats { repeats, offset } => line.put(1, b"*Z").digits(23, 25, repeats).digits(27, 29, offset),
            Runs::Frequency { running_time, density } => {
                line.put(1, b"*T").digits(17, 20, running_time).digits(22, 25, density)
            }
        };
        out.write_all(&opening.0)?;
        for span in &service.written.categories {
            let line = Line::new().put(1, b"*G").put(4, &span.given.to_be_bytes()[1..]);
            out.write_all(&line.end(14, span.from).end(22, span.to).0)?;
        }
        for span in &service.written.days {
            out.write_all(&attribute(b"VE", span).0)?;
        }
        for (code, span) in &service.written.others {
            out.write_all(&attribute(&code.to_be_bytes()[2..], span).0)?;
        }
        service.calls.iter().try_for_each(|call| out.write_all(&self.call_line(call).0))
    }

    fn call_line(&self, call: &Call) -> Line {
        let has = |flag: u32| call.flags & flag != 0;
        Line::new()
            .digits(1, 7, self.stops[call.stop as usize].number)
            .time(30, call.arrival, has(ARRIVAL), has(NO_ALIGHTING))
            .time(37, call.departure, has(DEPARTURE), has(NO_BOARDING))
            .digits(44, 48, call.number)
            .put(50, &six_bytes(call.administration))
    }
}

fn attribute(code: &[u8], span: &Span) -> Line {
    Line::new().put(1, b"*A").put(4, code).end(13, span.from).end(21, span.to).digits(23, 28, span.given)
}

/// "two words of three bytes"
fn six_bytes([first, second]: [u32; 2]) -> [u8; 6] {
    let ([_, a, b, c], [_, d, e, f]) = (first.to_be_bytes(), second.to_be_bytes());
    [a, b, c, d, e, f]
}
