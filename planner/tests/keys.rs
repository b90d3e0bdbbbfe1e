//! Keys of handles: found in their own timetable, and in no other.

mod trial_week;

use std::collections::HashMap;

use estelunya_planner::{Date, ServiceKey, Timetable};
use trial_week::TRIAL_WEEK;

fn friday() -> Date {
    "05.12.2025".parse().unwrap()
}

/// Yesterday's keys are `None` today, also where both were loaded from the same bytes.
#[test]
fn yesterday() {
    let [yesterday, today] = [(), ()].map(|()| Timetable::load(&TRIAL_WEEK).unwrap());
    let (service, stop, field, daily, category, run) = yesterday.scope(|timetable| {
        let service = timetable.services().next().unwrap();
        let run = service.runs(timetable.day(friday()).unwrap()).next().unwrap();
        let field = service.operating_days().next().unwrap().field;
        assert_eq!((!field).key(), None);
        let (stop, category) = (timetable.stops().last().unwrap(), timetable.categories().next().unwrap());
        (
            service.key(),
            stop.key(),
            field.key().unwrap(),
            timetable.each_day().key().unwrap(),
            category.key(),
            run.key(),
        )
    });
    yesterday.scope(|timetable| {
        assert_eq!(timetable.get(service), timetable.services().next());
        assert_eq!(timetable.get(stop), timetable.stops().last());
        assert_eq!(timetable.get(field), timetable.bit_fields().next());
        assert_eq!(timetable.get(daily), Some(timetable.each_day()));
        assert_eq!(timetable.get(category), timetable.categories().next());
        assert_eq!(timetable.get(run).map(|run| (run.repeat(), run.date(), run.key())), Some((0, friday(), run)));
    });
    today.scope(|timetable| {
        assert_eq!(timetable.get(service), None);
        assert_eq!(timetable.get(stop), None);
        assert_eq!(timetable.get(field), None);
        assert_eq!(timetable.get(daily), None);
        assert_eq!(timetable.get(category), None);
        assert_eq!(timetable.get(run), None);
        let same = timetable.services().next().unwrap().key();
        assert_ne!(same, service);
    });
}

/// The accident, as a host would write it: a map by key over a swap finds nothing of yesterday's.
#[test]
fn a_map_over_a_swap() {
    let mut kept: HashMap<ServiceKey, u32> = HashMap::new();
    let mut current = Timetable::load(&TRIAL_WEEK).unwrap();
    current.scope(|timetable| {
        kept.extend(timetable.services().map(|service| (service.key(), service.number())));
    });
    assert!(current.scope(|timetable| timetable.services().all(|service| kept.contains_key(&service.key()))));
    current = Timetable::load(&TRIAL_WEEK).unwrap();
    assert!(!current.scope(|timetable| timetable.services().any(|service| kept.contains_key(&service.key()))));
}
