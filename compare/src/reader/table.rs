//! "Table (32-bit words)": the words of a delivery that passed 1 to 19.

use std::collections::HashMap;

use super::fields::Time;
use super::load::Delivery;
use super::service::{Call, Given, Service};
use crate::layout::{
    ARRIVAL, CALL_WORDS, CATEGORY_WORDS, DAYS_WORDS, DEPARTURE, EXTRA_WORDS, HEADER_WORDS, NO_ALIGHTING, NO_BOARDING,
    SERVICE_WORDS,
};

/// Header, bit fields, stops, interchange records, and of document 02, No. 1, "a section of two words each (code, class) .. before the services";
/// services; "all in file order".
pub fn words(delivery: &Delivery) -> Vec<u32> {
    let mut words = vec![0; HEADER_WORDS];
    for (number, bits) in &delivery.bitfields {
        words.push(*number);
        words.extend_from_slice(bits);
    }
    for stop in &delivery.stops {
        words.extend_from_slice(&[stop.number, stop.name_at, stop.name_length]);
    }
    for record in &delivery.interchange {
        words.extend_from_slice(&[record.number, record.times[0], record.times[1]]);
    }
    for category in &delivery.categories {
        words.extend_from_slice(&[category.code, category.class]);
    }
    let first_service = words.len();
    // Document 02, No. 10: "the place of its stop in the stop section, counted from 0"
    let places: HashMap<u32, u32> = (0..).zip(&delivery.stops).map(|(place, stop)| (stop.number, place)).collect();
    for service in &delivery.services {
        words.extend(service_words(service, &places));
    }
    // "words used, first day, n, bit fields B, stops S, interchange records U, services V, place of first service"; "The header grows to nine words,
    // the last being the count of categories"
    let header: [u32; HEADER_WORDS] = [
        words.len() as u32,
        delivery.first_day,
        delivery.days,
        delivery.bitfields.len() as u32,
        delivery.stops.len() as u32,
        delivery.interchange.len() as u32,
        delivery.services.len() as u32,
        first_service as u32,
        delivery.categories.len() as u32,
    ];
    words[..HEADER_WORDS].copy_from_slice(&header);
    words
}

/// "Service: its word count, number, administration ..., repeats, offset, calls c, *G g, *A VE v, other a, *Z line:
/// 11 words. Then calls of 4 ..., *G of 3 ..., *A VE of 3 ..., other of 4"; document 02, No. 5: "Each call grows from 4 to 7 words:
/// number and the two administration words follow the flags. A blank field repeats the call before; the first call's blanks take
/// the *Z values." No. 8: "A service record gains a twelfth word, its kind", and the *Z values "may be a *T's".
fn service_words(service: &Service, places: &HashMap<u32, u32>) -> Vec<u32> {
    let draft = &service.draft;
    let (mut number, mut administration) = (draft.number, draft.administration);
    let mut calls: Vec<u32> = Vec::new();
    for call in &draft.calls {
        number = call.number.unwrap_or(number);
        administration = call.administration.unwrap_or(administration);
        calls.extend_from_slice(&call_words(call, places[&call.stop], number, administration));
    }
    let (mut categories, mut days, mut others) = (Vec::new(), Vec::new(), Vec::new());
    for range in &service.ranges {
        let (from, to) = (range.from as u32, range.to as u32);
        match range.given {
            Given::Category(category) => categories.extend_from_slice(&[category, from, to]),
            Given::Days { bitfield } => days.extend_from_slice(&[bitfield, from, to]),
            Given::Other { code, bitfield } => others.extend_from_slice(&[code, bitfield, from, to]),
        }
    }
    let [repeats, offset] = draft.runs.words();
    let head: [u32; SERVICE_WORDS] = [
        (SERVICE_WORDS + calls.len() + categories.len() + days.len() + others.len()) as u32,
        draft.number,
        draft.administration[0],
        draft.administration[1],
        repeats,
        offset,
        draft.calls.len() as u32,
        (categories.len() / CATEGORY_WORDS) as u32,
        (days.len() / DAYS_WORDS) as u32,
        (others.len() / EXTRA_WORDS) as u32,
        draft.line,
        draft.runs.kind(),
    ];
    let mut words = head.to_vec();
    for section in [calls, categories, days, others] {
        words.extend(section);
    }
    words
}

/// "calls of 4 (stop, arrival, departure, flags: 1 arrival, 2 departure, 4 no alighting, 8 no boarding; absent time 0)",
/// and the number and administration that hold there. Document 02, No. 10: "A call now holds the place of its stop .. in place of the number."
fn call_words(call: &Call, place: u32, number: u32, [high, low]: [u32; 2]) -> [u32; CALL_WORDS] {
    let (arrival, arrival_flags) = time_words(call.arrival, ARRIVAL, NO_ALIGHTING);
    let (departure, departure_flags) = time_words(call.departure, DEPARTURE, NO_BOARDING);
    [place, arrival, departure, arrival_flags | departure_flags, number, high, low]
}

fn time_words(time: Time, has: u32, no: u32) -> (u32, u32) {
    match time {
        Time::Stated { minutes, barred: false } => (minutes, has),
        Time::Stated { minutes, barred: true } => (minutes, has | no),
        Time::Absent | Time::Broken => (0, 0),
    }
}
